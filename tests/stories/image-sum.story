title: the page's two sums by hand: 01 00 01 00 for one record of version 1, and 00 00 01 00 where the words wrap at 32 bits

start                           => 0
send context 1 data 00 00 01 00 01 00*7 00*112 01 00 01 00              => 0
finish context 1                => 0
tick 8
query context 1                 => answer 00*4 01 00*7
power
start                           => 0
send context 2 data 00 00 01 00 01 00*7 ff*4 00*108 00 00 01 00         => 0
finish context 2                => 0
tick 8
query context 2                 => answer 00*4 01 00*7
power
# The other sum under each: Failed.
start                           => 0
send context 3 data 00 00 01 00 01 00*7 00*112 00 00 01 00              => 0
finish context 3                => 0
tick 8
query context 3                 => 7/3
start                           => 0
send context 4 data 00 00 01 00 01 00*7 ff*4 00*108 01 00 01 00         => 0
finish context 4                => 0
tick 8
query context 4                 => 7/3
# A sum that wraps many times: 28 payload words of ff ff ff ff take 28 from 00 01 00 01, read as a number.
start                           => 0
send context 5 data 00 00 01 00 01 00*7 ff*112 e5 ff 00 00              => 0
finish context 5                => 0
tick 8
query context 5                 => 0
end staged 5
