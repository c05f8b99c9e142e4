# The left side of same is no text: Mismatch at the same, once both sides are typed.

from ()
to bool

fuel check 6, run 0

script
  insert true = "ab"
