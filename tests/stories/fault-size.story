title: an image that is one byte too short: the size is named, with record 0, whatever the records hold

start                           => 0
send context 1 image bad-size size 511 version 81 records 4   => 0
finish context 1                => 0
tick 8
query context 1                 => 7/3
end failed 1 size 0
