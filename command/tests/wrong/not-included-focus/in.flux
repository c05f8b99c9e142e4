labels a, b
from a[], b[] to a[], b[]
procedure p(x: text, y: bool) from a[] to a[] = skip
script iter [p("x", true)]
