labels a
from a[] to b[]
script skip
