title: another version in record 1, a wrong number in record 2: the earlier record comes first

start                           => 0
send context 1 image bad-number at 2 and bad-version and-at 1 version 83 records 3   => 0
finish context 1                => 0
tick 8
query context 1                 => 7/3
end failed 1 version 1
