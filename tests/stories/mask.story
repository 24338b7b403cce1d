title: function 0 answers its mask at every revision, whatever its request and whatever the phase

mask revision 2                 => answer 07 f0 fb 00
mask revision 1                 => answer 07 00 00 00
mask revision 3                 => answer 00 00 00 00
mask revision 0                 => answer 00 00 00 00
mask revision 65535             => answer 00 00 00 00
mask revision 258               => answer 00 00 00 00           # 0x0102: neither 1 nor 2
mask revision 513               => answer 00 00 00 00           # 0x0201
# It reads past its request.
mask revision 2 bytes 1         => answer 07 f0 fb 00
mask revision 2 bytes 536       => answer 07 f0 fb 00
call function 0 revision 1 request ff*536       => answer 07 00 00 00
call function 0 revision 3 request 01 02 03 04  => answer 00 00 00 00
# In other phases, and frozen: never refused.
host 3 start                    => 0
host 4 mask                     => answer 07 f0 fb 00
host 3 finish context 1         => 0
mask revision 1                 => answer 07 00 00 00
tick 8
mask                            => answer 07 f0 fb 00
freeze                          => 0
mask                            => answer 07 f0 fb 00
end failed 1 size 0
