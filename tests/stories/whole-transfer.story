title: the largest image, 128 records in pieces of 512: damaged in its last record it fails, loaded again it is staged

host 1 start                    => 0
host 1 send-all context 1 image bad-sum at 127 version 0x0123456789abcdef records 128 pieces 512        => 0
host 1 send context 1 offset 16384 data aa      => 3            # the area is full
host 1 finish context 1         => 0
tick 8
host 1 query context 1          => 7/3
host 1 start                    => answer 00*4 02 00 00 00      # Failed: a new transfer may begin
host 1 send-all context 2 image good version 0x0123456789abcdef records 128 pieces 512                  => 0
host 1 finish context 2         => 0
tick 7
host 1 query context 2          => 7/2
tick
host 1 query context 2          => answer 00*4 ef cd ab 89 67 45 23 01
info                            => answer 00*4 00 40 00 00 00 02 00 00 e8 03 00 00 40 1f 00 00 00*4 01 00*3 01 00*7 ef cd ab 89 67 45 23 01
power
info                            => answer 00*4 00 40 00 00 00 02 00 00 e8 03 00 00 40 1f 00 00 00*4 01 00*3 ef cd ab 89 67 45 23 01 00*8
end idle 2
