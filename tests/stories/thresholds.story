title: thresholds: spare 100 is accepted and 101 is not, only three enable bits are taken, temperatures bit for bit

get-threshold                   => answer 00*12
get-threshold revision 1        => answer 00*12
set-threshold enable 1 spare 100                        => 0
get-threshold                   => answer 00*4 01 00 64 00 00 00 00 00
set-threshold enable 2 spare 101 media 5                => 3    # nothing is stored
get-threshold                   => answer 00*4 01 00 64 00 00 00 00 00
set-threshold enable 0 spare 255                        => 3    # judged although its alarm is off
get-threshold revision 1        => answer 00*4 01 00 64 00 00 00 00 00
# Enable bits 3 to 15 are reserved: nothing is stored with one of them.
set-threshold enable 0xffff spare 0 media 0xffff controller 0xffff      => 3
set-threshold enable 0xfff8 spare 1 media 0x7fff controller 0x8000      => 3
set-threshold enable 0x0105 spare 99 media 0x0102 controller 0x0304     => 3
get-threshold                   => answer 00*4 01 00 64 00 00 00 00 00
set-threshold enable 7 spare 0 media 0xffff controller 0xffff           => 0
get-threshold                   => answer 00*4 07 00 00 ff ff ff ff 00
set-threshold enable 0 spare 1 media 0x7fff controller 0x8000           => 0
get-threshold                   => answer 00*4 00 00 01 ff 7f 00 80 00
set-threshold enable 5 spare 99 media 0x0102 controller 0x0304          => 0
get-threshold                   => answer 00*4 05 00 63 02 01 04 03 00
# Temperatures of alarms that are off are stored too.
host 4 set-threshold enable 0 spare 7 media 0x8010 controller 0x00a0    => 0
host 3 get-threshold            => answer 00*4 00 00 07 10 80 a0 00 00
# They outlive a power cycle, and neither a transfer nor a lock touches them.
set-passphrase current zeros new "alpha"                => 0
start                           => 0
power
get-threshold                   => answer 00*4 00 00 07 10 80 a0 00 00
set-threshold enable 7 spare 50 media 0x8000 controller 12              => 0
get-threshold revision 1        => answer 00*4 07 00 32 00 80 0c 00 00
end idle 1
