title: record 0 has another version than all others: the fault is in record 1, since record 0 is what the others are held to

start                           => 0
send context 1 image bad-version at 0 version 81 records 4   => 0
finish context 1                => 0
tick 8
query context 1                 => 7/3
end failed 1 version 1
