title: Finish: the reserved bytes and the flag first, then the context, then the phase

finish context 0                => 7/1          # Idle
finish context 1                => 7/1
finish flag 2 context 1         => 3            # before 7/1
start                           => 0
finish flag 2 context 1         => 3
finish flag 255 context 1       => 3
finish flag 3 context 9         => 3
finish context 2                => 7/1
finish context 0                => 7/1
finish context 0x01000001       => 7/1
send context 1 image good version 51 records 1  => 0
finish flag 0 reserved ff ff ff context 1       => answer 03 00*3
finish flag 0 context 1         => answer 00*4
finish context 1                => 7/2          # Verifying
finish flag 2 context 1         => 3
finish context 2                => 7/1
tick 8
finish context 1                => 7/2          # Staged
power
finish context 1                => 7/1
start                           => 0
finish flag 1 reserved 01 02 03 context 2       => 3
finish flag 1 context 2         => 0            # aborts
start                           => 0
host 2 finish context 3         => 0            # by another host: the page asks for the number alone
tick 8
finish context 3                => 7/2          # Failed
finish flag 128 context 3       => 3
end failed 3 size 0
