labels a, b, c
from a[b[], c[]] to a[b[], c[]]
script skip
forest
  a[b[]]
