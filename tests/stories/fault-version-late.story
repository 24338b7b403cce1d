title: the version is zero in record 3 alone: it is unlike record 0, version 3

start                           => 0
send context 1 image zero-version at 3 version 81 records 4   => 0
finish context 1                => 0
tick 8
query context 1                 => 7/3
end failed 1 version 3
