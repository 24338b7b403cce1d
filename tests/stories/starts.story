title: Start in every phase: a number in Idle and Failed, 7/1 while another transfer runs, 7/2 once an image is staged

host 1 start                    => answer 00*4 01 00*3          # Idle
host 1 start                    => answer 07 00 01 00 00*4      # Receiving: to the same host
host 2 start                    => answer 07 00 01 00 00*4      # and to others
host 1 finish context 1         => 0
host 2 start                    => answer 07 00 01 00 00*4      # Verifying
tick 7
host 2 start                    => 7/1                          # one tick left
tick
host 2 start                    => answer 00*4 02 00*3          # Failed, since nothing was sent
host 2 send context 2 image good version 9 records 2            => 0
host 2 finish context 2         => 0
tick 8
host 1 start                    => answer 07 00 02 00 00*4      # Staged
host 2 start                    => 7/2
power
host 3 start                    => answer 00*4 03 00*3          # numbers outlive power cycles
host 3 abort context 3          => 0
# Contexts are counted on: each Start with its abort gives out one more number.
host 4 start                    => answer 00*4 04 00*3
host 4 abort context 4          => 0
host 1 start                    => answer 00*4 05 00*3
host 1 abort context 5          => 0
host 1 start                    => answer 00*4 06 00*3
host 1 abort context 6          => 0
host 1 start                    => answer 00*4 07 00*3
host 1 abort context 7          => 0
host 1 start                    => answer 00*4 08 00*3
host 1 abort context 8          => 0
host 1 start                    => answer 00*4 09 00*3
host 1 abort context 9          => 0
host 1 start                    => answer 00*4 0a 00*3
host 1 query context 10         => 7/4
host 1 query context 1          => 7/1
end receiving 10
# Status 8 (every context given out) needs 4,294,967,295 accepted Starts: no log that can be kept gets there.
