title: two modules beside each other: versions, thresholds, readings, passphrases and locks are each module's own

# What is asked of module 1 is answered as by a module that is alone, and leaves module 0 as it was.
module 1 host 2 mask            => answer 07 f0 fb 00
module 0 host 2 mask            => answer 07 f0 fb 00
module 1 info                   => answer 00*4 00 40 00 00 00 02 00 00 e8 03 00 00 40 1f 00 00 00*4 01 00*3 01 00*7 00*8
module 1 call function 18       => 1
module 1 start revision 1       => 1
module 1 query bytes 3          => 3

# Thresholds, and what a reading of each trips.
set-threshold enable 7 spare 20 media 0x0200 controller 0x8020          => 0
module 1 get-threshold          => answer 00*12
module 1 set-threshold enable 1 spare 90 media 5 controller 6           => 0
get-threshold                   => answer 00*4 07 00 14 00 02 20 80 00
module 1 get-threshold revision 1               => answer 00*4 01 00 5a 05 00 06 00 00
reading spare 50 media 0x0201 controller 0x8021
module 1 reading spare 89 media 0xffff controller 0x7fff
get-health                      => answer 00*4 1a 02 00 00 00*5 32 00 02 01 02 21 80 00*112
module 1 host 3 get-health      => answer 00*4 1a 02 00 00 00*5 59 00 01 ff ff ff 7f 00*112

# Passphrases: one module is locked and the other has none; each counts its own wrong ones.
set-passphrase current zeros new "alpha"        => 0
module 1 security               => answer 00*12
module 1 disable current "alpha"                => 10   # module 1 has none to compare with
module 1 set-passphrase current "beta" new "beta"       => 0
disable current "beta" times 9  => 11           # the other module's passphrase
module 1 disable current "alpha"                => 11
security                        => answer 00*8 02 00*3
module 1 security               => answer 00*8 02 00*3
disable current "beta"          => 11           # the tenth
disable current "alpha"         => 10
security                        => answer 00*8 12 00*3
module 1 set-passphrase current "beta" new "gamma"      => 0    # module 1 is not at its limit
module 1 freeze                 => 0
module 1 security               => answer 00*8 0a 00*3
freeze                          => 10
power
security                        => answer 00*8 06 00*3
module 1 security               => answer 00*8 0a 00*3
unlock current "gamma"          => 11
unlock current "alpha"          => 0
module 1 unlock current "gamma" => 10           # frozen
module 1 power
module 1 unlock current "alpha" => 11
module 1 unlock current "gamma" => 0

# An image for each, one after the other: module 1 stages a version of its own, and module 0 has another.
start                           => answer 00*4 01 00*3
send context 1 image good version 40 records 3  => 0
finish context 1                => 0
tick 8
module 1 host 2 start           => answer 00*4 02 00*3
module 1 host 2 send context 2 image good version 41 records 2  => 0
module 1 host 2 finish context 2                => 0
tick 8
query context 1                 => answer 00*4 28 00*7
module 1 query context 2        => answer 00*4 29 00*7
query context 2                 => 7/1
module 1 query context 1        => 7/1
power
info                            => answer 00*4 00 40 00 00 00 02 00 00 e8 03 00 00 40 1f 00 00 00*4 01 00*3 28 00*7 00*8
module 1 host 4 info            => answer 00*4 00 40 00 00 00 02 00 00 e8 03 00 00 40 1f 00 00 00*4 01 00*3 01 00*7 29 00*7
end idle 2
end staged 2
