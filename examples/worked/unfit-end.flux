# Unfit at row 0: the forest itself ends too soon.

labels a = 1, b = 2, d = 4

from a[b[]], d[]
to a[b[]], d[]

script
  skip

forest
  a[b[]]
