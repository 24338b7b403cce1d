title: number and count are wrong in one record: number comes first

start                           => 0
send context 1 image bad-count at 1 and bad-number and-at 1 version 82 records 3   => 0
finish context 1                => 0
tick 8
query context 1                 => 7/3
end failed 1 number 1
