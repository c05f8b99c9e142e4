# Unfit comes before the run's Scratch: the forest is not of A, and two rows are enough for the check alone. 1 unit.

labels a = 1, b = 2

from a[]
to a[]

fuel check 1, run 4096

script
  skip

forest
  b[]
