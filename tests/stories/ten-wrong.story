title: ten wrong passphrases give 11 each; then the right one gives 10, until a power cycle

set-passphrase current zeros new "alpha"        => 0
disable current "guess" times 10                => 11           # the tenth too
security                        => answer 00*8 12 00*3
disable current "alpha"         => 10
disable current "guess"         => 10
set-passphrase current "alpha" new "beta"       => 10
unlock current "alpha"          => 10
freeze                          => 10
security                        => answer 00*8 12 00*3
power
security                        => answer 00*8 06 00*3          # locked, and the attempts begin again
# By Unlock.
unlock current "guess" times 10                 => 11
security                        => answer 00*8 16 00*3
unlock current "alpha"          => 10
freeze                          => 10
power
unlock current "alpha"          => 0
# By Set.
set-passphrase current "guess" new "beta" times 10              => 11
set-passphrase current "alpha" new "beta"       => 10
power
# By all three, one count for all.
unlock current "guess" times 4                  => 11
power
unlock current "alpha"          => 0
disable current "guess" times 4                 => 11
set-passphrase current "guess" new "beta" times 5               => 11
security                        => answer 00*8 02 00*3          # nine
disable current "guess"         => 11
security                        => answer 00*8 12 00*3          # ten
disable current "alpha"         => 10
end idle 0
