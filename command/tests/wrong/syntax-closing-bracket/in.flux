labels a
from a[]] to a[]
script skip
