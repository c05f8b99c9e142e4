# Unfit at row 2, the c inside a, which comes before the c at row 1 to the right of a.

labels a = 1, b = 2, c = 3, d = 4

from a[b[]], d[]
to a[b[]], d[]

script
  skip

forest
  a[c[]], c[]
