title: an abort ends a transfer that receives; while the module verifies, and after, it is let through no more

abort context 0                 => 7/1          # Idle, nothing given out
abort context 1                 => 7/1
start                           => 0
send context 1 image good version 41 records 2 piece 0..100     => 0
host 2 abort context 2          => 7/1          # not live
host 2 abort context 0          => 7/1
abort context 1                 => answer 00*4  # Idle
abort context 1                 => 7/1
query context 1                 => 7/1
send context 1 offset 0 data aa => 7/1
start                           => answer 00*4 02 00*3
send context 2 image good version 42 records 2  => 0
finish context 2                => 0
abort context 2                 => 7/2          # Verifying
tick 7
abort context 2                 => 7/2
tick
query context 2                 => answer 00*4 2a 00*7          # staged all the same
abort context 2                 => 7/2          # Staged
abort context 1                 => 7/1
power
start                           => 0
finish context 3                => 0
tick 8
abort context 3                 => 7/2          # Failed
query context 3                 => 7/3
end failed 3 size 0
