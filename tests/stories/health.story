title: function 1 gives the last reading and what it trips: a spare below its threshold, temperatures above theirs, each if enabled

# Behind the status: which fields are valid (spare, both temperatures, trips), zeros, spare at 13, trips at 15, media at 16,
# controller at 18, zeros to 131. A fresh module has read zeros.
get-health                      => answer 00*4 1a 02 00 00 00*5 00 00 00 00 00 00 00 00*112
get-health revision 1           => answer 00*4 1a 02 00 00 00*5 00 00 00 00 00 00 00 00*112

# Spare: below, and not at, its threshold.
set-threshold enable 1 spare 1                  => 0
get-health                      => answer 00*4 1a 02 00 00 00*5 00 00 01 00 00 00 00 00*112
reading spare 1
get-health                      => answer 00*4 1a 02 00 00 00*5 01 00 00 00 00 00 00 00*112
set-threshold enable 1 spare 100                => 0
get-health                      => answer 00*4 1a 02 00 00 00*5 01 00 01 00 00 00 00 00*112
reading spare 100 media 0x1234 controller 0xfedc
get-health revision 1           => answer 00*4 1a 02 00 00 00*5 64 00 00 34 12 dc fe 00*112
reading spare 99 media 0x1234 controller 0xfedc
get-health                      => answer 00*4 1a 02 00 00 00*5 63 00 01 34 12 dc fe 00*112
set-threshold enable 6 spare 100 media 0x7fff controller 0x7fff         => 0
get-health                      => answer 00*4 1a 02 00 00 00*5 63 00 00 34 12 dc fe 00*112     # its alarm is off

# Media: above, and not at, 20 degrees.
set-threshold enable 2 media 0x0140             => 0
reading media 0x0140
get-health                      => answer 00*4 1a 02 00 00 00*5 00 00 00 40 01 00 00 00*112
reading media 0x0141
get-health                      => answer 00*4 1a 02 00 00 00*5 00 00 02 41 01 00 00 00*112
reading media 0x8141
get-health                      => answer 00*4 1a 02 00 00 00*5 00 00 00 41 81 00 00 00*112     # 20 degrees below 0
reading controller 0x0141
get-health                      => answer 00*4 1a 02 00 00 00*5 00 00 00 00 00 41 01 00*112     # the other temperature

# A degree below 0: less of it is above.
set-threshold enable 2 media 0x8010             => 0
reading media 0x8010
get-health                      => answer 00*4 1a 02 00 00 00*5 00 00 00 10 80 00 00 00*112
reading media 0x8011
get-health                      => answer 00*4 1a 02 00 00 00*5 00 00 00 11 80 00 00 00*112
reading media 0x800f
get-health                      => answer 00*4 1a 02 00 00 00*5 00 00 02 0f 80 00 00 00*112
reading media 0x8000
get-health                      => answer 00*4 1a 02 00 00 00*5 00 00 02 00 80 00 00 00*112
reading media 0x0001
get-health                      => answer 00*4 1a 02 00 00 00*5 00 00 02 01 00 00 00 00*112
reading media 0xffff
get-health                      => answer 00*4 1a 02 00 00 00*5 00 00 00 ff ff 00 00 00*112

# 8000h is 0, as a reading and as a threshold.
set-threshold enable 6          => 0
reading media 0x8000 controller 0x8000
get-health                      => answer 00*4 1a 02 00 00 00*5 00 00 00 00 80 00 80 00*112
set-threshold enable 6 media 0x8000 controller 0x8000   => 0
get-health                      => answer 00*4 1a 02 00 00 00*5 00 00 00 00 80 00 80 00*112
reading
get-health                      => answer 00*4 1a 02 00 00 00*5 00 00 00 00 00 00 00 00*112
reading media 1 controller 0x8001
get-health                      => answer 00*4 1a 02 00 00 00*5 00 00 02 01 00 01 80 00*112
reading media 0x8001 controller 1
get-health                      => answer 00*4 1a 02 00 00 00*5 00 00 04 01 80 01 00 00*112
reading media 0x7fff controller 0x7fff
get-health                      => answer 00*4 1a 02 00 00 00*5 00 00 06 ff 7f ff 7f 00*112

# All three trip; then each alone, two and two, and none, by what is enabled.
set-threshold enable 7 spare 50 media 0x8140 controller 0x0200          => 0
reading spare 49 media 0x813f controller 0x0201
get-health                      => answer 00*4 1a 02 00 00 00*5 31 00 07 3f 81 01 02 00*112
set-threshold enable 1 spare 50 media 0x8140 controller 0x0200          => 0
get-health                      => answer 00*4 1a 02 00 00 00*5 31 00 01 3f 81 01 02 00*112
set-threshold enable 2 spare 50 media 0x8140 controller 0x0200          => 0
get-health                      => answer 00*4 1a 02 00 00 00*5 31 00 02 3f 81 01 02 00*112
set-threshold enable 4 spare 50 media 0x8140 controller 0x0200          => 0
get-health                      => answer 00*4 1a 02 00 00 00*5 31 00 04 3f 81 01 02 00*112
set-threshold enable 3 spare 50 media 0x8140 controller 0x0200          => 0
get-health                      => answer 00*4 1a 02 00 00 00*5 31 00 03 3f 81 01 02 00*112
set-threshold enable 5 spare 50 media 0x8140 controller 0x0200          => 0
get-health                      => answer 00*4 1a 02 00 00 00*5 31 00 05 3f 81 01 02 00*112
set-threshold enable 0 spare 50 media 0x8140 controller 0x0200          => 0
get-health                      => answer 00*4 1a 02 00 00 00*5 31 00 00 3f 81 01 02 00*112
# A refused Set Threshold, and a bad reading, leave both.
set-threshold enable 7 spare 101 media 0xffff controller 0xffff         => 3
bad reading spare 101
get-health                      => answer 00*4 1a 02 00 00 00*5 31 00 00 3f 81 01 02 00*112

# A power cycle keeps the reading, and no lock or freeze stops function 1.
set-threshold enable 7 spare 50 media 0x8140 controller 0x0200          => 0
set-passphrase current zeros new "alpha"        => 0
power
freeze                          => 0
get-health                      => answer 00*4 1a 02 00 00 00*5 31 00 07 3f 81 01 02 00*112
# Readings in a transfer leave it alone.
start                           => 0
reading spare 50 media 0x8140 controller 0x0200
send context 1 image good version 91 records 2  => 0
reading spare 50 media 0x8140 controller 0x0200
finish context 1                => 0
tick 7
reading spare 50 media 0x8141 controller 0x0202
query context 1                 => 7/2
tick
get-health                      => answer 00*4 1a 02 00 00 00*5 32 00 04 41 81 02 02 00*112
query context 1                 => answer 00*4 5b 00*7
end staged 1
