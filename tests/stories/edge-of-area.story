title: the last bytes of the area: 4 bytes at 16,380 go in, 4 bytes at 16,381 do not

start                           => 0
send-all context 1 data 5a*16380 pieces 512             => 0
send context 1 offset 16380 data 01 02 03 04            => 0
send context 1 offset 16384 data 05                     => 3    # full
abort context 1                 => 0
start                           => 0
send-all context 2 data a5*16381 pieces 512             => 0
send context 2 offset 16381 data 01 02 03 04            => 3
send context 2 offset 16381 data 09 08 07               => 0
send context 2 offset 16384 data 05                     => 3
send context 2 offset 16384                             => 3
finish context 2                => 0
tick 8
query context 2                 => 7/3          # 128 times 128 bytes, and no image
end failed 2 number 0
