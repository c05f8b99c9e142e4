labels a, b
type Row = a[text]
from Row* to Row*
script skip
forest
  a["one"],
  a["two", b[]],
  a["three"]
