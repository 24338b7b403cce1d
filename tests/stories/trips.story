title: the trips byte is kept, and stays true: renewed by each reading and each accepted Set Threshold, left by all else

set-threshold enable 7 spare 20 media 0x0200 controller 0x8020          => 0
get-health times 10             => answer 00*4 1a 02 00 00 00*5 00 00 05 00 00 00 00 00*112     # spare 0 is below 20; 0 degrees is above 2 below zero
reading spare 20 media 0x0201 controller 0x8020
get-health times 10             => answer 00*4 1a 02 00 00 00*5 14 00 02 01 02 20 80 00*112
# Each threshold moved past the reading, one after another.
set-threshold enable 7 spare 21 media 0x0200 controller 0x8020          => 0
get-health                      => answer 00*4 1a 02 00 00 00*5 14 00 03 01 02 20 80 00*112
set-threshold enable 7 spare 21 media 0x0201 controller 0x8020          => 0
get-health                      => answer 00*4 1a 02 00 00 00*5 14 00 01 01 02 20 80 00*112
set-threshold enable 7 spare 21 media 0x0201 controller 0x8021          => 0
get-health                      => answer 00*4 1a 02 00 00 00*5 14 00 05 01 02 20 80 00*112
set-threshold enable 6 spare 21 media 0x0201 controller 0x8021          => 0
get-health revision 1           => answer 00*4 1a 02 00 00 00*5 14 00 04 01 02 20 80 00*112
# Refused, or bad: the byte stays.
set-threshold enable 0 spare 101 media 0 controller 0                   => 3
set-threshold enable 8 spare 1 media 0 controller 0                     => 3
set-threshold enable 0 bytes 6  => 3
bad reading spare 101
bad reading byte 13
get-health                      => answer 00*4 1a 02 00 00 00*5 14 00 04 01 02 20 80 00*112
# Neither a lock, a transfer, a tick nor a power cycle touches it.
set-passphrase current zeros new "alpha"        => 0
start                           => 0
send context 1 image good version 93 records 1  => 0
finish context 1                => 0
tick 8
get-health                      => answer 00*4 1a 02 00 00 00*5 14 00 04 01 02 20 80 00*112
power
get-health                      => answer 00*4 1a 02 00 00 00*5 14 00 04 01 02 20 80 00*112
reading spare 20 media 0x0202 controller 0x8020
end idle 1
