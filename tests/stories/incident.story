title: the incident at sea again: two hosts load in the same hour, the second is refused, one image is staged and comes up

# Host 1 is the recorder's own updater, host 2 the port technician's laptop. Both bring new firmware for the module: the
# updater version 7, the laptop version 8. This log ships with the project as data/incident.log.

host 1 info                     => 0            # running version 1
host 1 start                    => answer 00*4 01 00 00 00
host 1 send context 1 image good version 7 records 16 piece 0..512              => 0

# The laptop comes alongside. Its Start is refused, and the answer carries no context.
host 2 info                     => 0
host 2 start                    => answer 07 00 01 00 00*4
host 1 send context 1 image good version 7 records 16 piece 512..1024           => 0

# It loads all the same, with the zeros that the refused Start answered. No piece goes in.
host 2 send context 0 image good version 8 records 8 piece 0..512               => 7/1
host 1 send context 1 image good version 7 records 16 piece 1024..1536          => 0
host 2 send context 0 image good version 8 records 8 piece 512..1024            => 7/1
host 2 finish context 0         => 7/1          # not counted as an update
host 1 send context 1 image good version 7 records 16 piece 1536..2048          => 0

# The updater ends its transfer; nothing is staged until the last tick.
host 1 finish context 1         => 0
host 2 start                    => 7/1          # the module verifies
tick 4
host 1 query context 1          => 7/2          # in progress
tick 4
host 1 query context 1          => answer 00*4 07 00*7
host 2 query context 0          => 7/1
host 2 start                    => 7/2          # an image is staged already
host 1 info                     => answer 00*4 00 40 00 00 00 02 00 00 e8 03 00 00 40 1f 00 00 00*4 01 00*3 01 00*7 07 00*7

# The restart: the module comes up with version 7, and the laptop, asking again, has nothing to load.
power
host 1 info                     => answer 00*4 00 40 00 00 00 02 00 00 e8 03 00 00 40 1f 00 00 00*4 01 00*3 07 00*7 00*8
host 1 query context 1          => 7/1          # the transfer is over
host 2 info                     => 0
end idle 1
