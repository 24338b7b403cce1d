title: every reserved bit: a Finish with any bit of its three reserved bytes, or a Set Threshold with any of enable bits 3 to 15, gives 3

set-threshold enable 5 spare 50 media 0x0140 controller 0x8010  => 0
set-threshold enable 0x0008 spare 1 media 1 controller 1        => 3
set-threshold enable 0x0010 spare 1 media 1 controller 1        => 3
set-threshold enable 0x0020 spare 1 media 1 controller 1        => 3
set-threshold enable 0x0040 spare 1 media 1 controller 1        => 3
set-threshold enable 0x0080 spare 1 media 1 controller 1        => 3
set-threshold enable 0x0100 spare 1 media 1 controller 1        => 3
set-threshold enable 0x0200 spare 1 media 1 controller 1        => 3
set-threshold enable 0x0400 spare 1 media 1 controller 1        => 3
set-threshold enable 0x0800 spare 1 media 1 controller 1        => 3
set-threshold enable 0x1000 spare 1 media 1 controller 1        => 3
set-threshold enable 0x2000 spare 1 media 1 controller 1        => 3
set-threshold enable 0x4000 spare 1 media 1 controller 1        => 3
set-threshold enable 0x8000 spare 1 media 1 controller 1        => 3
set-threshold enable 0xfff8 spare 1 media 1 controller 1        => 3
set-threshold enable 0xffff spare 1 media 1 controller 1        => 3
set-threshold enable 0x000f spare 101 media 1 controller 1      => 3    # as the spare would
get-threshold                   => answer 00*4 05 00 32 40 01 10 80 00  # nothing was stored
set-threshold enable 2 spare 51 media 0x0141 controller 0x8011  => 0
get-threshold                   => answer 00*4 02 00 33 41 01 11 80 00

# Finish: before the context, so in Idle it is 3 and not 7/1.
finish reserved 01 context 0    => answer 03 00*3
finish reserved 00 00 80 context 1              => 3
start                           => 0
send context 1 image good version 92 records 2  => 0
finish reserved 01 00 00 context 1              => 3
finish reserved 02 00 00 context 1              => 3
finish reserved 04 00 00 context 1              => 3
finish reserved 08 00 00 context 1              => 3
finish reserved 10 00 00 context 1              => 3
finish reserved 20 00 00 context 1              => 3
finish reserved 40 00 00 context 1              => 3
finish reserved 80 00 00 context 1              => 3
finish reserved 00 01 00 context 1              => 3
finish reserved 00 02 00 context 1              => 3
finish reserved 00 04 00 context 1              => 3
finish reserved 00 08 00 context 1              => 3
finish reserved 00 10 00 context 1              => 3
finish reserved 00 20 00 context 1              => 3
finish reserved 00 40 00 context 1              => 3
finish reserved 00 80 00 context 1              => 3
finish reserved 00 00 01 context 1              => 3
finish reserved 00 00 02 context 1              => 3
finish reserved 00 00 04 context 1              => 3
finish reserved 00 00 08 context 1              => 3
finish reserved 00 00 10 context 1              => 3
finish reserved 00 00 20 context 1              => 3
finish reserved 00 00 40 context 1              => 3
finish reserved 00 00 80 context 1              => 3
finish reserved ff ff ff context 1              => 3
finish flag 1 reserved 01 context 1             => 3    # aborts nothing
finish flag 2 reserved 01 context 1             => 3    # as the flag would
finish reserved 01 context 9    => 3            # and not 7/1
query context 1                 => 7/4          # still Receiving
finish context 1                => 0
finish reserved 00 01 00 context 1              => 3    # and not 7/2
finish context 1                => 7/2
tick 8
finish reserved 00 00 01 context 1              => 3
query context 1                 => answer 00*4 5c 00*7
# Function 0 reads past its request still.
call function 0 request ff*16   => answer 07 f0 fb 00
end staged 1
