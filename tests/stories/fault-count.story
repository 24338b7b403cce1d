title: the last record of the largest image holds another count: count 127

start                           => 0
send-all context 1 image bad-count at 127 version 81 records 128 pieces 512   => 0
finish context 1                => 0
tick 8
query context 1                 => 7/3
end failed 1 count 127
