# Unfit at row 2, the a that is empty: its content ends too soon. Names are opened on the way.

labels a = 1, b = 2

type X = a[X*, b[]]

from X
to X

script
  skip

forest
  a[a[a[b[]], a[]], b[]]
