title: a second incident, refused: the laptop comes for module 1 while the recorder loads module 0, is answered 8, and comes again later

# Host 1 is the recorder's own updater, which loads version 7 into module 0; host 2 is the port technician's laptop, which
# brings version 8 for module 1. The two modules have one staging area.

module 0 host 1 start           => answer 00*4 01 00*3
module 0 host 1 send context 1 image good version 7 records 16 piece 0..512     => 0

# The laptop's module is Idle and has no transfer; its Start is refused all the same, with no context in the answer.
module 1 host 2 info            => answer 00*4 00 40 00 00 00 02 00 00 e8 03 00 00 40 1f 00 00 00*4 01 00*3 01 00*7 00*8
module 1 host 2 start           => answer 08 00 00 00 00*4
module 0 host 1 send context 1 image good version 7 records 16 piece 512..1024  => 0

# It sends without one, and with the recorder's. No piece of it reaches the area.
module 1 host 2 send context 0 image good version 8 records 8 piece 0..512      => 7/1
module 1 host 2 send context 1 image good version 8 records 8 piece 0..512      => 7/1
module 1 host 2 finish context 1                => 7/1
module 1 host 2 abort context 1                 => 7/1
module 0 host 1 send context 1 image good version 7 records 16 piece 1024..1536 => 0
module 0 host 1 send context 1 image good version 7 records 16 piece 1536..2048 => 0
module 0 host 1 finish context 1                => 0

# Verifying: the image is still in the area.
module 1 host 2 start           => 8
tick 7
module 1 host 2 start           => 8
module 0 host 2 start           => 7/1          # and at the other module the laptop is out of turn
tick
module 0 host 1 query context 1 => answer 00*4 07 00*7

# Staged: the area is free, though module 0 has not been restarted. The laptop comes again.
module 1 host 2 start           => answer 00*4 02 00*3
module 0 host 1 start           => 7/2
module 1 host 2 send context 2 image good version 8 records 8 piece 0..512      => 0
# Module 0 is restarted in the middle of the laptop's transfer. It comes up with version 7, and the transfer goes on.
module 0 power
module 0 host 1 info            => answer 00*4 00 40 00 00 00 02 00 00 e8 03 00 00 40 1f 00 00 00*4 01 00*3 07 00*7 00*8
module 0 host 1 start           => 8            # now the recorder has to wait
module 1 host 2 send context 2 image good version 8 records 8 piece 512..1024   => 0
module 1 host 2 finish context 2                => 0
tick 8
module 1 host 2 query context 2 => answer 00*4 08 00*7
module 1 power
module 1 host 2 info            => answer 00*4 00 40 00 00 00 02 00 00 e8 03 00 00 40 1f 00 00 00*4 01 00*3 08 00*7 00*8
module 0 host 1 info            => answer 00*4 00 40 00 00 00 02 00 00 e8 03 00 00 40 1f 00 00 00*4 01 00*3 07 00*7 00*8
end idle 2
end idle 2
