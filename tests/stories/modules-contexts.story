title: contexts are shared: a number is given once, by whichever module, and each module knows its own current one alone

start                           => answer 00*4 01 00*3
module 1 query context 1        => 7/1          # module 0's
abort context 1                 => 0
module 1 start                  => answer 00*4 02 00*3
module 1 query context 1        => 7/1
query context 2                 => 7/1
send context 2 data aa          => 7/1          # at module 0, with module 1's context
send context 1 data aa          => 7/1          # module 0's own, which is over
module 1 send context 1 data aa => 7/1
module 1 send context 2 data bb => 0
finish context 2                => 7/1
abort context 2                 => 7/1
module 1 query context 2        => 7/4
module 1 abort context 2        => 0
# Module 1 has given out a number since: module 0's next is the one after it.
start                           => answer 00*4 03 00*3
module 1 host 2 finish context 3                => 7/1
module 1 host 2 query context 2 => 7/1
power
module 1 power
# Numbers outlive the power cycles of both.
module 1 start                  => answer 00*4 04 00*3
# A late piece from the transfer that module 0's power cycle ended, at either module.
host 2 send context 3 data cc   => 7/1
module 1 host 2 send context 3 data cc          => 7/1
module 1 send context 4 image good version 50 records 1 => 0
module 1 finish context 4       => 0
tick 8
module 1 query context 4        => answer 00*4 32 00*7
start                           => answer 00*4 05 00*3
query context 4                 => 7/1
module 1 query context 4        => answer 00*4 32 00*7          # live still, beside module 0's
module 1 query context 5        => 7/1
query context 5                 => 7/4
send context 5 image good version 51 records 1  => 0
finish context 5                => 0
tick 8
# Both Staged, each with its own context and version.
query context 5                 => answer 00*4 33 00*7
module 1 query context 4        => answer 00*4 32 00*7
start                           => 7/2
module 1 start                  => 7/2
module 1 power
module 1 start                  => answer 00*4 06 00*3
module 1 finish context 6       => 0
tick 8
module 1 query context 6        => 7/3
query context 5                 => 0
end staged 6
end failed 6 size 0
