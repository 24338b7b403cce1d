title: module numbers that there are not, in calls, power cycles and readings; any in a tick; and hosts where no host calls: all bad

# Module 1 verifies, with one tick left: had one of these records been taken, its end would tell.
module 1 host 4 start           => answer 00*4 01 00*3
module 1 host 4 finish context 1                => 0
tick 7
# Calls: the high four bits of the host byte are 2 to 15, host 1 in the low four.
bad module 2
bad module 3
bad module 4
bad module 5
bad module 6
bad module 7
bad module 8
bad module 9
bad module 10
bad module 11
bad module 12
bad module 13
bad module 14
bad module 15
# Power cycles and readings of such a module.
bad power module 2
bad power module 3
bad power module 4
bad power module 5
bad power module 6
bad power module 7
bad power module 8
bad power module 9
bad power module 10
bad power module 11
bad power module 12
bad power module 13
bad power module 14
bad power module 15
bad reading module 2
bad reading module 3
bad reading module 4
bad reading module 5
bad reading module 6
bad reading module 7
bad reading module 8
bad reading module 9
bad reading module 10
bad reading module 11
bad reading module 12
bad reading module 13
bad reading module 14
bad reading module 15
# A tick reaches both modules and names none, module 1 neither.
bad tick module 1
bad tick module 2
bad tick module 3
bad tick module 4
bad tick module 5
bad tick module 6
bad tick module 7
bad tick module 8
bad tick module 9
bad tick module 10
bad tick module 11
bad tick module 12
bad tick module 13
bad tick module 14
bad tick module 15
# Power cycles and readings of modules 0 and 1 with a host in the low four bits.
raw 03 01                       => bad
raw 03 02                       => bad
raw 03 03                       => bad
raw 03 04                       => bad
raw 03 05                       => bad
raw 03 06                       => bad
raw 03 07                       => bad
raw 03 08                       => bad
raw 03 09                       => bad
raw 03 0a                       => bad
raw 03 0b                       => bad
raw 03 0c                       => bad
raw 03 0d                       => bad
raw 03 0e                       => bad
raw 03 0f                       => bad
raw 03 11                       => bad
raw 03 12                       => bad
raw 03 13                       => bad
raw 03 14                       => bad
raw 03 15                       => bad
raw 03 16                       => bad
raw 03 17                       => bad
raw 03 18                       => bad
raw 03 19                       => bad
raw 03 1a                       => bad
raw 03 1b                       => bad
raw 03 1c                       => bad
raw 03 1d                       => bad
raw 03 1e                       => bad
raw 03 1f                       => bad
raw 04 01                       => bad
raw 04 02                       => bad
raw 04 03                       => bad
raw 04 04                       => bad
raw 04 05                       => bad
raw 04 06                       => bad
raw 04 07                       => bad
raw 04 08                       => bad
raw 04 09                       => bad
raw 04 0a                       => bad
raw 04 0b                       => bad
raw 04 0c                       => bad
raw 04 0d                       => bad
raw 04 0e                       => bad
raw 04 0f                       => bad
raw 04 11                       => bad
raw 04 12                       => bad
raw 04 13                       => bad
raw 04 14                       => bad
raw 04 15                       => bad
raw 04 16                       => bad
raw 04 17                       => bad
raw 04 18                       => bad
raw 04 19                       => bad
raw 04 1a                       => bad
raw 04 1b                       => bad
raw 04 1c                       => bad
raw 04 1d                       => bad
raw 04 1e                       => bad
raw 04 1f                       => bad
# A tick with a host, and with both.
raw 02 01                       => bad
raw 02 11                       => bad
# Calls of module 1 that are bad for what makes any call bad.
raw 01 10 02 00 0d              => bad          # host 0
raw 01 15 02 00 0d              => bad          # host 5
raw 01 1f 02 00 0d              => bad
bad length 537 module 1
bad padding module 1
bad padding module 1 byte 8
bad kind 0 module 1
bad kind 5 module 1
bad power module 1 byte 2
bad power module 1 byte 543
bad reading module 1 byte 7
bad reading module 1 byte 13
bad reading module 1 spare 101
# Nothing of it has reached a module.
module 1 query context 1        => 7/2
module 1 get-health             => answer 00*4 1a 02 00 00 00*124
start                           => 8
# The same bytes with a module that there is.
raw 01 14 02 00 0c              => 0            # Get FW Info of module 1, by host 4
raw 04 10 00 00 00 00 00 00 64 01 00 02 00
module 1 get-health             => answer 00*4 1a 02 00 00 00*5 64 00 00 01 00 02 00 00*112
raw 03 10
module 1 query context 1        => 7/1
end idle 1
end idle 1
