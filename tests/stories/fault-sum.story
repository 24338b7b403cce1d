title: the sum of record 3 is wrong: sum 3

start                           => 0
send context 1 image bad-sum at 3 version 81 records 4   => 0
finish context 1                => 0
tick 8
query context 1                 => 7/3
end failed 1 sum 3
