title: record 0 holds another count, and all versions are zero: count comes first

start                           => 0
send context 1 image zero-version and bad-count and-at 0 version 82 records 3   => 0
finish context 1                => 0
tick 8
query context 1                 => 7/3
end failed 1 count 0
