title: record 0 has another number, and a byte is missing: size comes first, before any record is looked at

start                           => 0
send context 1 image bad-size size 383 and bad-number and-at 0 version 82 records 3   => 0
finish context 1                => 0
tick 8
query context 1                 => 7/3
end failed 1 size 0
