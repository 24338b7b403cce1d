title: every function index at revisions 0 to 3, with the request that revision 2 would take

# A function that is not served at its revision gives status 1 in 4 bytes, before its request is looked at.

# Revision 0: nothing is served.
call function 0 revision 0      => answer 00*4
call function 1 revision 0      => answer 01 00*3
call function 2 revision 0      => answer 01 00*3
call function 12 revision 0     => answer 01 00*3
call function 13 revision 0     => answer 01 00*3
call function 14 revision 0 request 01 00*7 01 00*3 aa                          => answer 01 00*3
call function 15 revision 0 request 00*4 01 00*3                                => answer 01 00*3
call function 16 revision 0 request 01 00*3                                     => answer 01 00*3
call function 17 revision 0 request 07 00 32 00 80 0c 00                        => answer 01 00*3
call function 19 revision 0     => answer 01 00*3
call function 20 revision 0 request 00*32 "alpha" 00*27                         => answer 01 00*3
call function 21 revision 0 request "alpha" 00*27                               => answer 01 00*3
call function 22 revision 0 request "alpha" 00*27                               => answer 01 00*3
call function 23 revision 0     => answer 01 00*3

# Revision 1: 0, 1 and 2 are served.
call function 0 revision 1      => answer 07 00*3
call function 1 revision 1      => answer 00*4 1a 02 00*126
call function 2 revision 1      => 0
call function 12 revision 1     => answer 01 00*3
call function 13 revision 1     => answer 01 00*3
call function 14 revision 1 request 01 00*7 01 00*3 aa                          => answer 01 00*3
call function 15 revision 1 request 00*4 01 00*3                                => answer 01 00*3
call function 16 revision 1 request 01 00*3                                     => answer 01 00*3
call function 17 revision 1 request 07 00 32 00 80 0c 00                        => answer 01 00*3
call function 19 revision 1     => answer 01 00*3
call function 20 revision 1 request 00*32 "alpha" 00*27                         => answer 01 00*3
call function 21 revision 1 request "alpha" 00*27                               => answer 01 00*3
call function 22 revision 1 request "alpha" 00*27                               => answer 01 00*3
call function 23 revision 1     => answer 01 00*3

# Revision 3: nothing is served.
call function 0 revision 3      => answer 00*4
call function 1 revision 3      => answer 01 00*3
call function 2 revision 3      => answer 01 00*3
call function 12 revision 3     => answer 01 00*3
call function 13 revision 3     => answer 01 00*3
call function 14 revision 3 request 01 00*7 01 00*3 aa                          => answer 01 00*3
call function 15 revision 3 request 00*4 01 00*3                                => answer 01 00*3
call function 16 revision 3 request 01 00*3                                     => answer 01 00*3
call function 17 revision 3 request 07 00 32 00 80 0c 00                        => answer 01 00*3
call function 19 revision 3     => answer 01 00*3
call function 20 revision 3 request 00*32 "alpha" 00*27                         => answer 01 00*3
call function 21 revision 3 request "alpha" 00*27                               => answer 01 00*3
call function 22 revision 3 request "alpha" 00*27                               => answer 01 00*3
call function 23 revision 3     => answer 01 00*3

# Revision 2 serves all that are served. These are not among them: labels, error injection, pass-through, erase and others.
call function 3 revision 2      => answer 01 00*3
call function 4 revision 2      => answer 01 00*3
call function 5 revision 2      => answer 01 00*3
call function 6 revision 2      => answer 01 00*3
call function 7 revision 2      => answer 01 00*3
call function 8 revision 2      => answer 01 00*3
call function 9 revision 2      => answer 01 00*3
call function 10 revision 2     => answer 01 00*3
call function 11 revision 2     => answer 01 00*3
call function 18 revision 2     => answer 01 00*3
call function 24 revision 2     => answer 01 00*3
call function 25 revision 2     => answer 01 00*3
call function 30 revision 2     => answer 01 00*3
call function 31 revision 2     => answer 01 00*3
call function 32 revision 2     => answer 01 00*3
call function 34 revision 2     => answer 01 00*3
call function 64 revision 2     => answer 01 00*3
call function 255 revision 2    => answer 01 00*3
call function 256 revision 2    => answer 01 00*3
call function 258 revision 2    => answer 01 00*3
call function 269 revision 2    => answer 01 00*3
call function 65535 revision 2  => answer 01 00*3

# Status 1 comes before the request's length and before what the fields say.
call function 18 revision 2 request ff*536                                      => 1
call function 14 revision 1 request ff                                          => 1
call function 2 revision 3 request ff                                           => 1

# Only revision 2 is revision 2.
call function 13 revision 4     => 1
call function 13 revision 255   => 1
call function 13 revision 256   => 1
call function 13 revision 257   => 1
call function 13 revision 258   => 1
call function 13 revision 513   => 1
call function 13 revision 514   => 1
call function 13 revision 32770 => 1
call function 13 revision 65535 => 1

# Revision 2 at last: all functions once, each accepted but one.
get-health                      => answer 00*4 1a 02 00*126
get-threshold                   => answer 00*12
set-threshold enable 7 spare 50 media 0x8000 controller 12                      => 0
get-threshold                   => answer 00*4 07 00 32 00 80 0c 00 00
get-threshold revision 1        => answer 00*4 07 00 32 00 80 0c 00 00
info                            => 0
start                           => 0
send context 1 data aa          => 0
finish context 1                => 0
tick 8
query context 1                 => 7/3          # one byte is no image
security                        => answer 00*12
set-passphrase current zeros new "alpha"                                        => 0
disable current "alpha"         => 0
set-passphrase current zeros new "beta"                                         => 0
power
unlock current "beta"           => 0
freeze                          => 0
security                        => answer 00*8 0a 00*3
end idle 1
