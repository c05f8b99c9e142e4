labels a, b, c, d
from a[b[]], d[] to a[b[]], d[]
script skip
forest
  a[c[]],
  c[]
