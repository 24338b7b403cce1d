title: a zero version and a wrong sum in record 0: version comes first

start                           => 0
send context 1 image bad-sum at 0 and zero-version and-at 0 version 82 records 3   => 0
finish context 1                => 0
tick 8
query context 1                 => 7/3
end failed 1 version 0
