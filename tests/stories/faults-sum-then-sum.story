title: two wrong sums, in records 2 and 5: the first is named

start                           => 0
send-all context 1 image bad-sum at 5 and bad-sum and-at 2 version 83 records 6 pieces 512   => 0
finish context 1                => 0
tick 8
query context 1                 => 7/3
end failed 1 sum 2
