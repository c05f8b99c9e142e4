labels a
from a[string] to a[string]
script skip
