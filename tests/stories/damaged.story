title: every fault that an image can have, in its first, a middle and its last record: Failed each time, and Query 7/3

# Each transfer sends 3 records of version 5, all good but for one thing, waits 8 ticks and asks. The sums are right but
# where the sum is the fault. After Failed the next Start is accepted.

# The size is not n times 128.
start                           => 0
send context 1 image bad-size size 383 version 5 records 3                      => 0
finish context 1                => 0
tick 8
query context 1                 => 7/3
start                           => 0
send context 2 image bad-size size 385 version 5 records 3                      => 0
finish context 2                => 0
tick 8
query context 2                 => 7/3
start                           => 0
send context 3 image bad-size size 1 version 5 records 3                        => 0
finish context 3                => 0
tick 8
query context 3                 => 7/3
start                           => 0
send context 4 image bad-size size 129 version 5 records 3                      => 0
finish context 4                => 0
tick 8
query context 4                 => 7/3

# Record i does not hold i.
start                           => 0
send context 5 image bad-number at 0 version 5 records 3                        => 0
finish context 5                => 0
tick 8
query context 5                 => 7/3
start                           => 0
send context 6 image bad-number at 1 version 5 records 3                        => 0
finish context 6                => 0
tick 8
query context 6                 => 7/3
start                           => 0
send context 7 image bad-number at 2 version 5 records 3                        => 0
finish context 7                => 0
tick 8
query context 7                 => 7/3

# Record i does not hold n.
start                           => 0
send context 8 image bad-count at 0 version 5 records 3                         => 0
finish context 8                => 0
tick 8
query context 8                 => 7/3
start                           => 0
send context 9 image bad-count at 1 version 5 records 3                         => 0
finish context 9                => 0
tick 8
query context 9                 => 7/3
start                           => 0
send context 10 image bad-count at 2 version 5 records 3                        => 0
finish context 10               => 0
tick 8
query context 10                => 7/3

# The version is zero, in all records or in one.
start                           => 0
send context 11 image zero-version version 5 records 3                          => 0
finish context 11               => 0
tick 8
query context 11                => 7/3
start                           => 0
send context 12 image zero-version at 2 version 5 records 3                     => 0
finish context 12               => 0
tick 8
query context 12                => 7/3

# The version is not the same in all.
start                           => 0
send context 13 image bad-version at 0 version 5 records 3                      => 0
finish context 13               => 0
tick 8
query context 13                => 7/3
start                           => 0
send context 14 image bad-version at 1 version 5 records 3                      => 0
finish context 14               => 0
tick 8
query context 14                => 7/3
start                           => 0
send context 15 image bad-version at 2 version 5 records 3                      => 0
finish context 15               => 0
tick 8
query context 15                => 7/3

# The sum is wrong.
start                           => 0
send context 16 image bad-sum at 0 version 5 records 3                          => 0
finish context 16               => 0
tick 8
query context 16                => 7/3
start                           => 0
send context 17 image bad-sum at 1 version 5 records 3                          => 0
finish context 17               => 0
tick 8
query context 17                => 7/3
start                           => 0
send context 18 image bad-sum at 2 version 5 records 3                          => 0
finish context 18               => 0
tick 8
query context 18                => 7/3

# A good image of 4 records of which 3 came: the size is right for 3, and each record says 4.
start                           => 0
send context 19 image good version 5 records 4 piece 0..384                     => 0
finish context 19               => 0
tick 8
query context 19                => 7/3

# One record, of version zero.
start                           => 0
send context 20 image zero-version version 5 records 1                          => 0
finish context 20               => 0
tick 8
query context 20                => 7/3

# The incident: two images of one size, pieces of both in one transfer.
start                           => 0
send context 21 image good version 5 records 3 piece 0..200                     => 0
send context 21 image good version 6 records 3 piece 200..384                   => 0
finish context 21               => 0
tick 8
query context 21                => 7/3

# And the good one.
start                           => 0
send context 22 image good version 5 records 3                                  => 0
finish context 22               => 0
tick 8
query context 22                => answer 00*4 05 00*7
end staged 22
