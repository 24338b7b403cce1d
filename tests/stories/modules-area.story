title: the area is free for the other module as soon as neither is Receiving or Verifying: after abort, Failed, Staged and power

# While module 0 is Receiving and Verifying, module 1 is answered 8, and module 0 itself 7/1.
start                           => answer 00*4 01 00*3
module 1 start                  => answer 08 00 00 00 00*4
start                           => 7/1
module 1 host 2 start times 3   => 8
# Abort.
abort context 1                 => 0
module 1 start                  => answer 00*4 02 00*3
start                           => answer 08 00 00 00 00*4
module 1 start                  => 7/1
module 1 abort context 2        => 0
start                           => answer 00*4 03 00*3
# Power, of the module that has the area; that of the other does not free it.
module 1 power
module 1 start                  => 8
power
module 1 start                  => answer 00*4 04 00*3
start                           => 8
# Failed, at the last tick.
module 1 send context 4 image bad-count version 52 records 2    => 0
module 1 finish context 4       => 0
start                           => 8
tick 7
start                           => 8
module 1 start                  => 7/1
tick
start                           => answer 00*4 05 00*3
module 1 query context 4        => 7/3          # Failed still
module 1 start                  => 8            # and module 1 waits now
module 1 query context 4        => 7/3
# Staged, at the last tick. A Start at a module in Staged is answered 7/2, whether the area is free or not.
send context 5 image good version 53 records 2  => 0
finish context 5                => 0
tick 8
query context 5                 => answer 00*4 35 00*7
start                           => 7/2
module 1 start                  => answer 00*4 06 00*3
start                           => 7/2
# Module 1 writes over the image that module 0 has staged from: a staged version is a number.
module 1 send context 6 data ff*512             => 0
query context 5                 => answer 00*4 35 00*7
power
info                            => answer 00*4 00 40 00 00 00 02 00 00 e8 03 00 00 40 1f 00 00 00*4 01 00*3 35 00*7 00*8
start                           => 8
module 1 finish context 6       => 0
# Power in the middle of a verification.
module 1 power
start                           => answer 00*4 07 00*3
# The bytes of one module's transfer do not count as another's: what is not received is not looked at.
send context 7 image good version 54 records 1  => 0
finish context 7                => 0
tick 8
query context 7                 => answer 00*4 36 00*7
module 1 start                  => answer 00*4 08 00*3
module 1 finish context 8       => 0            # with nothing received, over module 0's good image
tick 8
module 1 query context 8        => 7/3
power
# Wrong requests of a Start are told before the area is looked at.
start                           => answer 00*4 09 00*3
module 1 start bytes 1          => 3
module 1 start revision 1       => 1
module 1 start                  => 8
module 1 power
module 1 set-threshold enable 8 => 3
end receiving 9
end idle 9
