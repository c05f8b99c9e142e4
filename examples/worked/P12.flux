# P12: rename a on a gives a, 2 units.

labels a = 1

from a[]
to a[]

fuel check 4096, run 2

script
  rename a

forest
  a[]
