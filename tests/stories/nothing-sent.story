title: Finish with nothing received fails after 8 ticks, whatever image stands in the area from before

host 1 start                    => 0
host 1 finish context 1         => 0
host 1 query context 1          => 7/2
tick 8
host 1 query context 1          => answer 07 00 03 00 00*8
# A good image stays in the area after an abort. Nothing of it was received by the next transfer.
host 1 start                    => 0
host 1 send context 2 image good version 6 records 2            => 0
host 1 abort context 2          => 0
host 1 start                    => 0
host 1 finish context 3         => 0
tick 8
host 1 query context 3          => 7/3
end failed 3 size 0
