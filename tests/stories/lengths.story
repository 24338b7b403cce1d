title: a request one byte too short or too long gives 3 in the function's length, and comes before the function's own checks

# Functions with no request bytes.
call function 1 request 00      => answer 03 00*131
call function 1 revision 1 request 00           => answer 03 00*131
call function 2 request 00      => answer 03 00*11
call function 2 revision 1 request 00           => answer 03 00*11
call function 12 request 00     => answer 03 00*43
call function 13 request 00     => answer 03 00*7               # gives out no context
call function 19 request 00     => answer 03 00*11
call function 23 request 00     => answer 03 00*3               # freezes nothing
call function 23 request 00*536 => answer 03 00*3
# Finish, Query, Set Threshold. In Idle the right lengths would give 7/1.
finish context 1 bytes 7        => answer 03 00*3
finish context 1 bytes 9        => 3
finish context 1 bytes 0        => 3
query context 1 bytes 3         => answer 03 00*11
query context 1 bytes 5         => 3
query context 1 bytes 0         => 3
set-threshold enable 7 spare 50 bytes 6         => answer 03 00*3
set-threshold enable 7 spare 50 bytes 8         => 3
get-threshold                   => answer 00*12                 # nothing was stored
# The passphrase functions.
set-passphrase current zeros new "alpha" bytes 63       => answer 03 00*3
set-passphrase current zeros new "alpha" bytes 65       => 3
set-passphrase current zeros new "alpha" bytes 32       => 3
disable current "alpha" bytes 31        => answer 03 00*3
disable current "alpha" bytes 33        => 3
unlock current "alpha" bytes 31         => answer 03 00*3
unlock current "alpha" bytes 33         => 3
security                        => answer 00*12                 # still off, not frozen
# Send under 12 bytes.
send context 1 bytes 11         => answer 03 00*3
send context 1 bytes 0          => 3
# With a passphrase set: a wrong length counts no attempt, and while frozen it is 3 and not 10.
set-passphrase current zeros new "alpha"        => 0
disable current "guess" bytes 31 times 11       => 3
set-passphrase current "guess" new "beta" bytes 63      => 3
freeze                          => 0
disable current "alpha" bytes 31        => 3
unlock current "alpha" bytes 33         => 3
set-passphrase current "alpha" new "beta" bytes 65      => 3
call function 23 request 00     => 3
power
unlock current "alpha"          => 0
# In Receiving.
start                           => 0
send context 1 bytes 11         => 3
send context 1 data 01          => 0
finish context 1 bytes 7        => 3
finish context 1 bytes 9        => 3
query context 1 bytes 3         => 3
call function 13 request 00     => 3                            # and not 7/1
finish context 1                => 0
end verifying 1
