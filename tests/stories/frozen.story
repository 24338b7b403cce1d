title: a frozen module refuses 20 to 23 with 10 before it looks at a passphrase, so it counts no attempts

freeze                          => 0            # with security off
security                        => answer 00*8 08 00*3
freeze                          => 10
set-passphrase current zeros new "alpha"        => 10
disable current zeros           => 10
unlock current zeros            => 10
power
security                        => answer 00*12                 # frozen off
set-passphrase current zeros new "alpha"        => 0
freeze                          => 0
security                        => answer 00*8 0a 00*3
disable current "guess" times 11                => 10
disable current "alpha"         => 10
set-passphrase current "alpha" new "beta"       => 10
security                        => answer 00*8 0a 00*3          # the limit is not reached
power
security                        => answer 00*8 06 00*3          # locked, not frozen
freeze                          => 0                            # locked or not
security                        => answer 00*8 0e 00*3
unlock current "alpha"          => 10
unlock current "guess" times 11                 => 10
power
unlock current "alpha"          => 0                            # no attempt was counted
# Firmware and thresholds are served while frozen.
freeze                          => 0
start                           => 0
send context 1 image good version 61 records 1  => 0
finish context 1                => 0
tick 8
query context 1                 => 0
set-threshold enable 1 spare 3  => 0
get-threshold                   => answer 00*4 01 00 03 00*5
security                        => answer 00*8 0a 00*3
end staged 1
