labels a, b, c
from a[b[]*]
to a[c[]*]
script skip
