# P11: same of "ab" at two offsets is true, 6 units; the insert takes one more.

from ()
to bool

pool "abab"

fuel check 4096, run 7

script
  insert "ab" = "ab" at 2
