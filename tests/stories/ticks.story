title: an image is staged by the eighth tick after Finish: not at Finish, not by the seventh, and once

tick 2                                          # Idle: nothing
start                           => 0
tick 2                                          # Receiving: nothing
send context 1 image good version 11 records 1  => 0
finish context 1                => 0
query context 1                 => 7/2          # not staged at Finish
info                            => answer 00*4 00 40 00 00 00 02 00 00 e8 03 00 00 40 1f 00 00 00*4 01 00*3 01 00*7 00*8
tick 7
query context 1                 => 7/2
tick
query context 1                 => answer 00*4 0b 00*7
tick 2                                          # Staged: nothing
query context 1                 => answer 00*4 0b 00*7
power
tick
info                            => answer 00*4 00 40 00 00 00 02 00 00 e8 03 00 00 40 1f 00 00 00*4 01 00*3 0b 00*7 00*8
# Ticks before Finish do not count.
start                           => 0
send context 2 image good version 12 records 1  => 0
tick 3
finish context 2                => 0
tick 5
query context 2                 => 7/2          # three ticks left
tick 3
query context 2                 => 0
power
# Failed: nothing.
start                           => 0
finish context 3                => 0
tick 9
query context 3                 => 7/3
# Two ticks are left at the end of this log.
start                           => 0
send context 4 image good version 13 records 1  => 0
finish context 4                => 0
tick 6
end verifying 4
