title: three hosts with right, old and guessed contexts: what is refused leaves no trace, and each transfer is one host's

host 1 start                    => 0            # 1
host 2 start                    => 7/1
host 3 send context 1 offset 7 data aa          => 3    # guessed, and not at the right offset
host 1 send context 1 image good version 71 records 5 piece 0..300      => 0
host 2 send context 2 offset 300 data bb*40     => 7/1
host 3 finish context 3         => 7/1
host 3 query context 4294967295 => 7/1
host 2 abort context 0          => 7/1
host 1 send context 1 image good version 71 records 5 piece 300..640    => 0
host 1 query context 1          => 7/4
host 1 abort context 1          => 0            # gives up
host 2 start                    => 0            # 2
host 1 send context 1 image good version 71 records 5 piece 0..300      => 7/1          # old
host 2 send context 2 image good version 72 records 3 piece 0..384      => 0
host 1 finish context 1         => 7/1
host 3 start                    => 7/1
host 2 finish context 2         => 0
host 1 abort context 1          => 7/1
host 3 send context 2 offset 384 data cc        => 7/1
tick 3
host 3 start                    => 7/1
host 1 query context 1          => 7/1
tick 5
host 2 query context 2          => answer 00*4 48 00*7
host 1 finish context 1         => 7/1
host 3 start                    => 7/2
power
host 3 start                    => 0            # 3
host 2 send context 2 offset 0 data dd          => 7/1
host 1 send context 1 offset 0 data ee          => 7/1
host 3 send context 3 image good version 73 records 1 piece 0..64       => 0
host 2 abort context 2          => 7/1
host 3 send context 3 image good version 73 records 1 piece 64..128     => 0
host 3 finish context 3         => 0
tick 9
host 3 query context 3          => answer 00*4 49 00*7
host 4 info                     => answer 00*4 00 40 00 00 00 02 00 00 e8 03 00 00 40 1f 00 00 00*4 01 00*3 48 00*7 49 00*7
end staged 3
