labels a, b
from a[], b[] to a[], b[]
script skip
forest
  a[]
