title: offset and length are added as exact numbers: an offset of 4,294,967,295 does not wrap round to the area's beginning

# Idle: 3, not 7/1.
send context 0 offset 4294967295 data aa bb             => 3
send context 1 offset 4294967294 data aa bb             => 3
send context 0 offset 4294967295 data aa                => 3
send context 0 offset 16383 data aa bb                  => 3
send context 0 offset 16383 data aa                     => 7/1  # fits
start                           => 0
send context 1 offset 4294967295 data aa bb             => 3
send context 1 offset 4294966784 data aa*512            => 3    # the sum is 0 in 32 bits
send context 1 offset 0x80000000 data aa*512            => 3
send context 1 offset 65536 data aa                     => 3
send context 1 offset 16384 data aa                     => 3
send context 1 offset 15873 data aa*512                 => 3
send context 1 offset 15872 data aa*512                 => 3    # fits, and is not what was received
send context 2 offset 15873 data aa*512                 => 3    # the sum comes before the context
send context 2 offset 15872 data aa*512                 => 7/1
send context 1 offset 0 data aa bb                      => 0
end receiving 1
