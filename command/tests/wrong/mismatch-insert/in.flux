labels a
from a[] to a[]
script insert a[]
