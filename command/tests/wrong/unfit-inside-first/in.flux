labels a, b, c, d
from a[b[]*, c[]], d[] to a[b[]*, c[]], d[]
script skip
forest
  a[b[], b[]],
  a[]
