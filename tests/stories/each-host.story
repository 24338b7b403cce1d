title: every host gets every status that a log can reach, each another number of times, so that no two counts of the report are alike

# What the report over this log alone must say, by hand. Status 6 is beyond any log, and 2, 4, 5 and 9 are never given.
#
#   status      0  1 2  3 4 5 6  7  8 9 10 11
#   host 1     22 17 0 13 0 0 0  9 30 0  5  1
#   host 2     21 18 0 14 0 0 0 10 31 0  6  2
#   host 3     23 19 0 15 0 0 0 11 32 0  7  3
#   host 4     24 20 0 16 0 0 0 12 33 0  8  4
#   function 0 25, ticks 26, power 27, readings 29, bad 28, short 1

# 10: nothing is enabled, so there is nothing to unlock.
host 1 unlock current "alpha" times 5           => 10
host 2 unlock current "alpha" times 6           => 10
host 3 disable current "alpha" times 7          => 10
host 4 disable current "alpha" times 8          => 10
# 11: ten wrong passphrases in all, one more from each host than from the one before it.
host 1 set-passphrase current zeros new "alpha" => 0
host 1 disable current "beta"                   => 11
host 2 disable current "gamma" times 2          => 11
host 3 set-passphrase current "delta" new "x" times 3   => 11
host 4 disable current "alpha." times 4         => 11
host 1 security                                 => answer 00*8 12 00*3
# 7: no transfer runs.
host 1 query context 1 times 9                  => 7/1
host 2 finish context 1 times 10                => 7/1
host 3 send context 1 data aa times 11          => 7/1
host 4 abort context 1 times 12                 => 7/1
# 3: a request one byte too long, or a field that is wrong.
host 1 info bytes 1 times 13                    => 3
host 2 set-threshold spare 101 times 14         => 3
host 3 finish flag 2 times 15                   => 3
host 4 send context 1 times 16                  => 3
# 1: not served at all, or not at this revision.
host 1 call function 18 times 17                => 1
host 2 call function 24 times 18                => 1
host 3 start revision 1 times 19                => 1
host 4 start revision 3 times 20                => 1
# 0: host 1 has had two already.
host 1 info times 20                            => 0
host 2 get-threshold times 21                   => 0
host 3 get-threshold revision 1 times 23        => 0
host 4 info times 23                            => 0
# 8: module 1, which host 4 has started, has the area. Its 24th is this Start.
module 1 host 4 start                           => 0
host 1 start times 30                           => 8
host 2 start times 31                           => 8
host 3 start times 32                           => 8
host 4 start times 33                           => 8
# Function 0 has no status, whoever asks and at whatever revision.
host 1 mask times 10                            => answer 07 f0 fb 00
host 2 mask revision 1 times 8                  => answer 07 00 00 00
host 3 mask revision 3 times 6                  => answer 00*4
host 4 mask bytes 536                           => answer 07 f0 fb 00
# Events, of no host. A power cycle's record is its kind and zeros.
tick 26
raw 03 times 27
reading spare 1 media 2 controller 3 times 29
# Calls by every host that are bad, and so no calls at all.
raw 01 01 02 00 0d 00*538 01 times 7            => bad
raw 01 02 02 00 0d 00*538 01 times 7            => bad
raw 01 03 02 00 0d 00 19 02 times 7             => bad
raw 01 04 02 00 0d 00 ff ff times 7             => bad
short 543
end idle 1
end receiving 1
