title: the area's bytes stay through Start, abort, power and failure; only the received bytes are the image

start                           => 0
send context 1 data ff*512      => 0
power
start                           => 0
send context 2 data ee*300      => 0
abort context 2                 => 0
# A shorter image over the old bytes: what lies behind it does not matter.
start                           => 0
send context 3 image good version 81 records 1  => 0
finish context 3                => 0
tick 8
query context 3                 => answer 00*4 51 00*7
power
# The rest of an image that stood there from before does not count as received.
start                           => 0
send context 4 image good version 82 records 2  => 0
abort context 4                 => 0
start                           => 0
send context 5 image good version 82 records 2 piece 0..128     => 0
finish context 5                => 0
tick 8
query context 5                 => 7/3          # one record that says two
# A refused Send writes nothing.
start                           => 0
send context 6 offset 1 data 99 => 3
send context 5 offset 0 data 99 => 7/1
send context 6 offset 0 length 3 data 99        => 3
send context 6 offset 0 data 77*3               => 0
send context 6 offset 0 data 99*3               => 3
end receiving 6
