title: nine wrong passphrases, then the right one: the attempts are 0 again

set-passphrase current zeros new "alpha"        => 0
set-passphrase current "guess" new "beta" times 9               => 11
set-passphrase current "alpha" new "beta"       => 0
set-passphrase current "alpha" new "gamma" times 9              => 11
disable current "beta"          => 0
security                        => answer 00*12
set-passphrase current "any" new "delta"        => 0            # not enabled: the current field is ignored
power
unlock current "guess" times 9                  => 11
unlock current "delta"          => 0
# Nine more: the count began at 0.
disable current "guess" times 9                 => 11
security                        => answer 00*8 02 00*3          # not at the limit
disable current "delta"         => 0
security                        => answer 00*12
# An accepted call of another kind, a refused one and a tick leave the count.
set-passphrase current zeros new "alpha"        => 0
disable current "guess" times 5                 => 11
start                           => 0
start                           => 7/1
unlock current "alpha"          => 10           # not locked
tick
disable current "guess" times 4                 => 11
security                        => answer 00*8 02 00*3
disable current "guess"         => 11
security                        => answer 00*8 12 00*3          # ten
power
unlock current "alpha"          => 0
disable current "guess" times 9                 => 11
disable current "alpha"         => 0
# bin/answers ends with attempts 0.
end idle 1
