# P10: delete on a, d gives (), 1 unit.

labels a = 1, d = 4

from a[], d[]
to ()

fuel check 4096, run 1

script
  delete

forest
  a[], d[]
