title: images made from a payload of no byte, one, 111, 112, 113 and 14,336 bytes are good; the last one, of 238, is staged at the end

# The parts have 112 bytes, and up to 112 bytes make one record. The first by hand: number 0, count 1, version 71, no payload,
# and the sum of the words 00 00 01 00 and 47 00 00 00.
start                           => 0
send context 1 data 00 00 01 00 47 00*7 00*112 47 00 01 00                      => 0
send context 1 image made version 71 payload zeros                              => 3    # its record, again at 0
finish context 1                => 0
tick 8
query context 1                 => answer 00*4 47 00*7
power
start                           => 0
send context 2 image made version 71 payload zeros                              => 0
finish context 2                => 0
tick 8
query context 2                 => answer 00*4 47 00*7
power
start                           => 0
send context 3 image made version 72 payload ff                                 => 0
finish context 3                => 0
tick 8
query context 3                 => answer 00*4 48 00*7
power
start                           => 0
send context 4 image made version 73 payload ff*111                             => 0
finish context 4                => 0
tick 8
query context 4                 => answer 00*4 49 00*7
power
start                           => 0
send context 5 image made version 74 payload ff*112                             => 0
send context 5 offset 128 data 01               => 0    # a byte more than the one record is no image
finish context 5                => 0
tick 8
query context 5                 => 7/3
start                           => 0
send context 6 image made version 74 payload ff*112                             => 0
finish context 6                => 0
tick 8
query context 6                 => answer 00*4 4a 00*7
power
# One byte more makes a second record, which is needed.
start                           => 0
send context 7 image made version 75 payload ff*113 piece 0..128                => 0
finish context 7                => 0
tick 8
query context 7                 => 7/3
start                           => 0
send context 8 image made version 75 payload ff*113                             => 0
finish context 8                => 0
tick 8
query context 8                 => answer 00*4 4b 00*7
power
# The longest payload takes all of the area.
start                           => 0
send-all context 9 image made version 0xffffffffffffffff payload 5a*14336 pieces 512    => 0
send context 9 offset 16384 data 00             => 3
finish context 9                => 0
tick 8
query context 9                 => answer 00*4 ff*8
power
start                           => 0
send-all context 10 image made version 77 payload "what the build room gives, " 00 80 ff "in no even number of parts"*8 pieces 7,100,200      => 0
finish context 10               => 0
tick 8
query context 10                => answer 00*4 4d 00*7
end staged 10
