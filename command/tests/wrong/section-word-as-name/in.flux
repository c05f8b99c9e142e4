labels a, script
from a[] to a[]
script skip
