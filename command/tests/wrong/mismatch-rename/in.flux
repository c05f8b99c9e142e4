labels a, b
from a[] | b[] to a[]
script rename a
