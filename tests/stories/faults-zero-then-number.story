title: all versions are zero, and record 1 has a wrong number: record 0 comes first

start                           => 0
send context 1 image zero-version and bad-number and-at 1 version 83 records 3   => 0
finish context 1                => 0
tick 8
query context 1                 => 7/3
end failed 1 version 0
