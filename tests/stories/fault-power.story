title: a power cycle after a failure leaves no fault, and nothing to ask of

start                           => 0
send context 1 image bad-count at 1 version 86 records 2                        => 0
finish context 1                => 0
tick 8
query context 1                 => 7/3
power
query context 1                 => 7/1
end idle 1
