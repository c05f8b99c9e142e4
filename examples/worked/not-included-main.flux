# The main statement yields a, and b is declared: not included, row 0.

labels a = 1, b = 2

from a[]
to b[]

fuel check 1, run 0

script
  skip
