title: record 3 holds the number 4: number 3

start                           => 0
send context 1 image bad-number at 3 version 81 records 4   => 0
finish context 1                => 0
tick 8
query context 1                 => 7/3
end failed 1 number 3
