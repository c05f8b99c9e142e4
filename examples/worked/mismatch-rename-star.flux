# Rename needs an atom as written, and a star is none: Mismatch.

labels a = 1, b = 2

from a[]*
to b[]

fuel check 1, run 0

script
  rename b
