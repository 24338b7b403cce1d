title: passphrases: when each of Set, Disable and Unlock is forbidden, and that any 32 bytes will do

# Security off: Disable and Unlock give 10, Set ignores the current field.
security                        => answer 00*12
disable current zeros           => 10
unlock current zeros            => 10
set-passphrase current "anything" new "alpha"   => 0
security                        => answer 00*8 02 00*3
# Enabled, not locked: Unlock gives 10.
unlock current "alpha"          => 10
set-passphrase current "beta" new "gamma"       => 11           # nothing is stored
set-passphrase current "alpha" new "beta"       => 0
disable current "alpha"         => 11                           # no longer the passphrase
# Locked after a power cycle: Set and Disable give 10, right or wrong, and count nothing.
power
security                        => answer 00*8 06 00*3
set-passphrase current "beta" new "gamma"       => 10
set-passphrase current "guess" new "gamma"      => 10
disable current "beta"          => 10
disable current "guess"         => 10
unlock current "guess"          => 11
unlock current "beta"           => 0
unlock current "beta"           => 10                           # not locked any more
security                        => answer 00*8 02 00*3
# All 32 bytes count, the first and the last too.
set-passphrase current "beta" new 01 00*30 02   => 0
disable current 01 00*30 03     => 11
disable current 00 00*30 02     => 11
disable current 01 00*15 01 00*14 02            => 11
set-passphrase current 01 00*30 02 new ff*32    => 0
disable current ff*31           => 11
set-passphrase current ff*32 new zeros          => 0            # 32 zeros are a passphrase
security                        => answer 00*8 02 00*3
disable current 00*31 01        => 11
power
unlock current "beta"           => 11
unlock current zeros            => 0
disable current zeros           => 0
security                        => answer 00*12
# Off again: a power cycle locks nothing.
power
security                        => answer 00*12
unlock current zeros            => 10
# The same passphrase again may be the new one.
set-passphrase current zeros new "alpha"        => 0
set-passphrase current "alpha" new "alpha"      => 0
disable current "alpha"         => 0
# The phase plays no part.
start                           => 0
set-passphrase new 00 01 02 03 04 05 06 07 08 09 0a 0b 0c 0d 0e 0f 10 11 12 13 14 15 16 17 18 19 1a 1b 1c 1d 1e 1f     => 0
finish context 1                => 0
disable current "guess" times 3 => 11
end verifying 1
