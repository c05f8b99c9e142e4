# Every X holds an X, so none is finite.
labels a = 1
type X = a[X]
from X to X
script skip
