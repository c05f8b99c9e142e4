labels a
type X = a[X]
from X to X
script skip
