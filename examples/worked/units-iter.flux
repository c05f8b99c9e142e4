# Iter visits six rows, types its body at the two atoms, and rebuilds choice, star and, last, sequence.

labels a = 1, b = 2

type X = b[text]

from (a[] | X)*, ()
to (a[] | X)*, ()

fuel check 12, run 0

script
  iter [skip]
