title: laptop's late piece after power-up: contexts are not given out again, so it does not land in the updater's transfer

host 2 start                    => answer 00*4 01 00*3          # to the laptop
host 2 send context 1 image good version 31 records 4 piece 0..256      => 0
power
host 1 start                    => answer 00*4 02 00*3          # to the updater: not 1 again
host 1 send context 2 image good version 32 records 4 piece 0..256      => 0
host 2 send context 1 image good version 31 records 4 piece 256..512    => 7/1          # late
host 2 finish context 1         => 7/1
host 2 abort context 1          => 7/1
host 2 query context 1          => 7/1
host 1 send context 2 image good version 32 records 4 piece 256..512    => 0
host 1 finish context 2         => 0
tick 8
host 1 query context 2          => answer 00*4 20 00*7
power
host 2 send context 1 offset 0 data aa          => 7/1
end idle 2
