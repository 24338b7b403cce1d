title: the ship's log of an hour, beside which laptop.story lays the laptop's: each field of a record differs alone somewhere

info                            => 0
start                           => 0
send context 1 data 01 02 03    => 0
get-threshold                   => 0            # 3: the laptop says host 2
get-threshold revision 1        => 0            # 4: revision 2
info                            => 0            # 5: function 19
query context 1                 => 7/4          # 6: a length one more
send context 1 offset 3 data 04 05              => 0    # 7: another piece
tick                                            # 8: a power cycle
tick
tick
raw zeros                       => bad          # 11: all fields
set-threshold enable 1 spare 10 => 0            # 12: host and request
host 4 info                     => 0            # 13: of this place the laptop has 10 bytes, of a Start by host 1
mask                            => answer 07 f0 fb 00
short 20
end receiving 1
