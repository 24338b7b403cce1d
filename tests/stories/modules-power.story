title: a power cycle and a reading are of the module that they name, and of no other

reading spare 1 media 2 controller 3
module 1 get-health             => answer 00*4 1a 02 00 00 00*124
module 1 reading spare 100 media 0x8000 controller 0xffff
get-health                      => answer 00*4 1a 02 00 00 00*5 01 00 00 02 00 03 00 00*112
module 1 get-health revision 1  => answer 00*4 1a 02 00 00 00*5 64 00 00 00 80 ff ff 00*112
module 0 reading spare 4 media 5 controller 6
get-health                      => answer 00*4 1a 02 00 00 00*5 04 00 00 05 00 06 00 00*112

# Module 1 receives; module 0's power cycle leaves it so, and its own ends it.
module 1 host 3 start           => answer 00*4 01 00*3
module 1 host 3 send context 1 image good version 70 records 2 piece 0..100     => 0
power
module 1 host 3 send context 1 image good version 70 records 2 piece 100..256   => 0
module 1 reading spare 7 media 8 controller 9
module 1 host 3 finish context 1                => 0
power
tick 4
module 0 power
tick 4
module 1 host 3 query context 1 => answer 00*4 46 00*7
power                                           # module 1 stays Staged
module 1 host 3 query context 1 => 0
module 1 power
module 1 host 3 query context 1 => 7/1
module 1 host 4 info            => answer 00*4 00 40 00 00 00 02 00 00 e8 03 00 00 40 1f 00 00 00*4 01 00*3 46 00*7 00*8
info                            => answer 00*4 00 40 00 00 00 02 00 00 e8 03 00 00 40 1f 00 00 00*4 01 00*3 01 00*7 00*8
# Power cycles keep each module's own reading.
get-health                      => answer 00*4 1a 02 00 00 00*5 04 00 00 05 00 06 00 00*112
module 1 get-health             => answer 00*4 1a 02 00 00 00*5 07 00 00 08 00 09 00 00*112

# Locks: each module's power cycle locks its own.
set-passphrase current zeros new "alpha"        => 0
module 1 set-passphrase current zeros new "beta"        => 0
module 1 power
security                        => answer 00*8 02 00*3
module 1 security               => answer 00*8 06 00*3
power
security                        => answer 00*8 06 00*3
module 1 unlock current "beta"  => 0
security                        => answer 00*8 06 00*3
module 1 start                  => answer 00*4 02 00*3
power
end idle 2
end receiving 2
