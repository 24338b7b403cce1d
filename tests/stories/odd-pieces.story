title: images in odd pieces: one byte at a time, primes, and cuts in the middle of a record

start                           => 0
send-all context 1 image good version 0xffffffffffffffff records 1 pieces 1,2,3,5,7,11,13       => 0
finish context 1                => 0
tick 8
query context 1                 => answer 00*4 ff*8
power
start                           => 0
send-all context 2 image good version 0x100000000 records 7 pieces 127,129,1,255,64             => 0
finish context 2                => 0
tick 8
query context 2                 => answer 00*8 01 00*3
power
start                           => 0
send-all context 3 image good version 2 records 37 pieces 509                                   => 0
finish context 3                => 0
tick 8
query context 3                 => answer 00*4 02 00*7
end staged 3
