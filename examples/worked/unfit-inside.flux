# Unfit at row 2, whose content ends too soon: that comes before the c behind it.

labels a = 1, b = 2, c = 3, d = 4

from a[b[]], d[]
to a[b[]], d[]

script
  skip

forest
  a[], c[]
