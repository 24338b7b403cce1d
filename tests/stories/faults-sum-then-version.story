title: a wrong sum in record 1, another version in record 2: the earlier record comes first

start                           => 0
send context 1 image bad-version at 2 and bad-sum and-at 1 version 83 records 3   => 0
finish context 1                => 0
tick 8
query context 1                 => 7/3
end failed 1 sum 1
