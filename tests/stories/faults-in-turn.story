title: transfer after transfer fails, each by its own fault: the last one's is named, and Query says 7/3 of all

start                           => 0
send context 1 image bad-sum at 2 version 84 records 3                          => 0
finish context 1                => 0
tick 8
query context 1                 => 7/3
start                           => 0
finish context 2                => 0
tick 8
query context 2                 => 7/3          # nothing was sent: the size
power
start                           => 0
send context 3 image bad-number at 1 version 84 records 3                       => 0
finish context 3                => 0
tick 8
tick 8                                          # ticks change nothing in Failed
query context 3                 => 7/3
end failed 3 number 1
