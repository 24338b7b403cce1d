title: four hosts at one module: 7 counts as 7 whatever its extended number, by the host that asks and not by the one that loads, and no tail

#   status      0 1 2 3 4 5 6 7 8 9 10 11       function 0 1, ticks 16, power 1, readings 0, bad 2, short 0
#   host 1      4 0 0 0 0 0 0 1 0 0  0  0
#   host 2      0 0 0 0 0 0 0 5 0 0  0  0
#   host 3      5 0 0 0 0 0 0 2 0 0  0  0
#   host 4      0 0 0 1 0 0 0 3 0 0  0  0

host 1 start                    => answer 00*4 01 00*3
host 2 start                    => 7/1
host 3 query context 1          => 7/4
host 4 send context 2 data aa   => 7/1
host 1 send context 1 data aa   => 0
host 3 finish context 1         => 0            # by another host: the page asks for the number alone
host 2 query context 1          => 7/2
host 4 finish context 1         => 7/2
tick 8
host 2 query context 1          => 7/3
bad host 5                                      # no host's
host 3 start                    => answer 00*4 02 00*3
host 1 query context 1          => 7/1          # the old one
host 3 send context 2 image good version 61 records 2   => 0
host 3 finish context 2         => 0
tick 8
host 2 start                    => 7/2
host 4 finish flag 9 context 2  => 3
host 4 abort context 2          => 7/2
host 3 query context 2          => answer 00*4 3d 00*7
bad host 0
power
host 3 query context 2          => 7/1
host 2 query context 2          => 7/1
host 1 info times 2             => 0
host 4 mask                     => answer 07 f0 fb 00
end idle 2
