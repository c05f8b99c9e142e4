# Test needs an atom as written, and a choice is none: Mismatch, though a run would not be stuck.

labels a = 1, b = 2

from a[] | b[]
to a[] | b[]

fuel check 1, run 0

script
  a? skip
