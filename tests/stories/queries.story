title: Query in every phase, with the live context, an old one, a later one and none

query context 0                 => 7/1          # Idle
query context 1                 => 7/1
start                           => 0
query context 1                 => answer 07 00 04 00 00*8      # Receiving
query context 0                 => 7/1
query context 2                 => 7/1
send context 1 image good version 0x8000000000000001 records 1  => 0
finish context 1                => 0
query context 1                 => answer 07 00 02 00 00*8      # Verifying
query context 2                 => 7/1
tick 8
query context 1                 => answer 00*4 01 00*6 80       # Staged
host 2 query context 1          => 0            # to any host
query context 2                 => answer 07 00 01 00 00*8
query context 0                 => 7/1
power
query context 1                 => 7/1
start                           => 0
finish context 2                => 0
tick 8
query context 2                 => answer 07 00 03 00 00*8      # Failed
query context 1                 => 7/1
end failed 2 size 0
# Status 6 (Query in Staged with staged version 0) cannot come from a fresh module: a good image's version is not zero,
# so no log reaches a record that is Staged with version 0.
