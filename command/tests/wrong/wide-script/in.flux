# Doubled ten times, a variable's type has over a thousand rows, and `insert` must lie in `to`.
labels a = 1
from () to a[]*
script
  insert
    let b = a[] in let c = b, b in let d = c, c in let e = d, d in let f = e, e in
    let g = f, f in let h = g, g in let i = h, h in let j = i, i in (j, j)
