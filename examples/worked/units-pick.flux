# Pick keeps a, picks b away, and rebuilds the choice last.

labels a = 1, b = 2

from a[] | b[]
to a[] | ()

fuel check 12, run 0

script
  snapshot x in (delete; insert x :: a)
