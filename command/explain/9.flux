# The script leaves an a, and a b is declared.
labels a = 1, b = 2
from a[] to b[]
script skip
