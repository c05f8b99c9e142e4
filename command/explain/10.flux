# The description has a b, and A wants an a.
labels a = 1, b = 2
from a[] to a[]
script skip
forest b[]
