title: Start after a failure is a new transfer, of which no fault is known

start                           => 0
send context 1 image bad-version at 2 version 85 records 3                      => 0
finish context 1                => 0
tick 8
query context 1                 => 7/3
start                           => 0
send context 2 image good version 85 records 3 piece 0..200                     => 0
end receiving 2
