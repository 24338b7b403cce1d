title: count and sum are wrong in one record: count comes first

start                           => 0
send context 1 image bad-sum at 1 and bad-count and-at 1 version 82 records 3   => 0
finish context 1                => 0
tick 8
query context 1                 => 7/3
end failed 1 count 1
