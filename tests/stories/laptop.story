title: the laptop's log of the hour that ship.story tells: record by record the same, but for one field here and there, and shorter

info                            => 0
start                           => 0
send context 1 data 01 02 03    => 0
host 2 get-threshold            => 0
get-threshold revision 2        => 0
security                        => 0
query context 1 bytes 5         => 3
send context 1 offset 3 data 04 06              => 0
power
tick
tick
raw ff*544                      => bad
host 3 set-threshold enable 1 spare 11          => 0
short 10
end idle 1
