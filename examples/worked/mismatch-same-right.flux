# The right side of same is no text: Mismatch at the same.

from ()
to bool

fuel check 6, run 0

script
  insert "ab" = true
