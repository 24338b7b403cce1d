title: a tick reaches both modules, whichever of them verifies, and names none

tick 3                                          # both Idle
module 1 start                  => answer 00*4 01 00*3
tick 9                                          # Receiving counts none
module 1 query context 1        => 7/4
module 1 send context 1 image good version 60 records 1 => 0
module 1 finish context 1       => 0
tick 7
module 1 query context 1        => 7/2
tick
module 1 query context 1        => answer 00*4 3c 00*7
tick 2                                          # Staged stays
# Module 0's turn, beside module 1 in Staged: the same ticks, counted by module 0 alone.
start                           => answer 00*4 02 00*3
send context 2 image bad-sum version 61 records 1       => 0
finish context 2                => 0
tick 4
module 1 power                                  # of the other module: module 0 goes on
tick 3
query context 2                 => 7/2
module 1 query context 1        => 7/1
tick
query context 2                 => 7/3
# Module 1 again, beside module 0 in Failed, which no tick touches.
module 1 start                  => answer 00*4 03 00*3
module 1 finish context 3       => 0
tick 3
query context 2                 => 7/3
power                                           # of module 0, in the middle of module 1's verification
start                           => 8
tick 2
module 1 query context 3        => 7/2
end idle 3
end verifying 3
