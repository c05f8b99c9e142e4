# Each call puts the tree twice into a new one; after thirteen calls it has 16383 rows.
labels a = 1
type X = a[X*]
from X to X
procedure twice() from X to X = snapshot x in (delete; insert a[x, x])
script
  twice(); twice(); twice(); twice(); twice(); twice(); twice(); twice();
  twice(); twice(); twice(); twice(); twice()
forest a[]
