title: every way in which a record is bad: each is skipped, keeps its number, and changes nothing

# Each of these would be a Start, but for one byte.
bad kind 0
bad kind 4
bad kind 9
bad kind 255
bad kind 2                                      # a tick with a host and a function
bad kind 3
bad host 0
bad host 5
bad host 255
bad length 537
bad length 538
bad length 65535
bad padding                                     # the last byte
bad padding byte 8                              # the first after an empty request
bad padding byte 100
# Ticks and power cycles with a byte that is not zero.
bad tick byte 1
bad tick byte 2
bad tick byte 543
bad tick byte 300
bad power byte 1
bad power byte 543
# Readings: every byte but the five is zero, and the spare is not over 100.
bad reading byte 1
bad reading byte 7
bad reading byte 13
bad reading byte 543
bad reading spare 101
bad reading spare 255
# A record of zeros, and one of 544 bytes ff.
raw zeros                       => bad
raw ff*544                      => bad
# Request bytes that the length does not take in: a Query with its four bytes and length 3, and a request of 536 bytes
# with length 535.
raw 01 01 02 00 10 00 03 00 01 00 00 01         => bad
raw 01 01 02 00 0e 00 17 02 11*536              => bad
# Not bad: a length that takes in zeros, and the longest request, of any bytes.
raw 01 01 02 00 10 00 04 00     => 7/1
raw 01 04 02 00 12 00 18 02 ff*536              => 1
host 1 start                    => answer 00*4 01 00*3          # nothing was given out before
# Bad ticks and power cycles while the module verifies.
finish context 1                => 0
tick 7
bad tick byte 1
bad power byte 1
bad kind 2
query context 1                 => 7/2
tick
query context 1                 => 7/3
bad host 7 times 3
short 543
end failed 1 size 0
