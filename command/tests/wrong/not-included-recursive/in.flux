labels a
from a[] to a[]
procedure p(x: text, y: text) from a[] to a[] =
  p(x, true)
script p("x", "y")
