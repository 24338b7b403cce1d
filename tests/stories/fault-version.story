title: record 2 has another version than record 0: version 2

start                           => 0
send context 1 image bad-version at 2 version 81 records 4   => 0
finish context 1                => 0
tick 8
query context 1                 => 7/3
end failed 1 version 2
