title: a power cycle in every phase: only a staged image comes up, every transfer is over, and the log breaks off after a byte

power                                           # Idle
start                           => 0            # Receiving
send context 1 image good version 21 records 2 piece 0..200     => 0
power
query context 1                 => 7/1
send context 1 image good version 21 records 2 piece 200..256   => 7/1
finish context 1                => 7/1
# Verifying, with one tick left.
start                           => 0
send context 2 image good version 22 records 2  => 0
finish context 2                => 0
tick 7
power
tick
query context 2                 => 7/1
info                            => answer 00*4 00 40 00 00 00 02 00 00 e8 03 00 00 40 1f 00 00 00*4 01 00*3 01 00*7 00*8
# Failed.
start                           => 0
finish context 3                => 0
tick 8
power
query context 3                 => 7/1
# Staged.
start                           => 0
send context 4 image good version 24 records 2  => 0
finish context 4                => 0
tick 8
power
info                            => answer 00*4 00 40 00 00 00 02 00 00 e8 03 00 00 40 1f 00 00 00*4 01 00*3 18 00*7 00*8
query context 4                 => 7/1
# Once more: the version that runs is kept.
power
info                            => answer 00*4 00 40 00 00 00 02 00 00 e8 03 00 00 40 1f 00 00 00*4 01 00*3 18 00*7 00*8
# An older version may be loaded: the page does not ask for a newer one.
start                           => 0
send context 5 image good version 23 records 1  => 0
finish context 5                => 0
tick 8
power
info                            => answer 00*4 00 40 00 00 00 02 00 00 e8 03 00 00 40 1f 00 00 00*4 01 00*3 17 00*7 00*8
short 1
end idle 5
