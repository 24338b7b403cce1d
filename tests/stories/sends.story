title: Send's checks in their order: the fields, then the transfer, then the offset

# Idle: a wrong field is 3, else 7/1.
send context 0 data aa bb       => 7/1
send context 1 data aa bb       => 7/1
send context 1 length 2         => 3            # nothing follows
send context 1 length 0         => 3
start                           => 0
# The length must be what follows.
send context 1 length 2 data aa                 => 3
send context 1 length 1 data aa bb              => 3
send context 1 length 0 data aa                 => 3
send context 1 length 0                         => 3
send context 1 length 4294967295 data aa        => 3
send context 1 length 65537 data aa             => 3    # 1 in its low two bytes
send context 1 length 257 data aa               => 3    # 1 in its low byte
# 1 to 512 bytes: 513 and what the longest log record holds are refused, 512 is accepted.
send context 1 data 11*513      => 3
send context 1 data 11*524      => 3
send context 1 data 11*512      => 0
send context 1 offset 512 data 22               => 0
# The offset must be what was received: no gap, no second time, no byte back.
send context 1 offset 514 data 33               => 3
send context 1 offset 512 data 33               => 3
send context 1 offset 0 data 33*512             => 3
send context 1 offset 512 data 33 33            => 3
send context 1 offset 513 data 33*3             => 0
# Another context: 7/1, before the offset is looked at; a wrong field comes before both.
host 2 send context 2 offset 516 data 44        => 7/1
host 2 send context 0 offset 516 data 44        => 7/1
host 2 send context 257 offset 516 data 44      => 7/1
host 2 send context 4294967295 offset 9 data 44 => 7/1
host 2 send context 2 offset 516 data 44*513    => 3
host 2 send context 2 offset 16384 data 44      => 3
# The right context from another host is served: the page asks for the number alone.
host 3 send context 1 offset 516 data 55        => 0
# Not in the other phases.
finish context 1                => 0
send context 1 offset 517 data 66               => 7/1  # Verifying
send context 1 offset 517 data 66*513           => 3
tick 8
send context 1 offset 517 data 66               => 7/1  # Failed
start                           => 0
send-all context 2 image good version 4 records 1 pieces 64     => 0
finish context 2                => 0
tick 8
send context 2 offset 128 data 66               => 7/1  # Staged
send context 2 offset 0 data 66                 => 7/1
query context 2                 => 0
power
send context 2 offset 0 data 66                 => 7/1  # Idle
end idle 2
