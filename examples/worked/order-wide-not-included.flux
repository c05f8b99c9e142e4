# A main output of 513 rows that is not of B: Wide before 9; a[x8] has 512 rows and is not included.

labels a = 1

from ()
to text

fuel check 4096, run 0

script
  insert
    let x0 = () in
    let x1 = x0, x0 in
    let x2 = x1, x1 in
    let x3 = x2, x2 in
    let x4 = x3, x3 in
    let x5 = x4, x4 in
    let x6 = x5, x5 in
    let x7 = x6, x6 in
    let x8 = x7, x7 in
    (x8, ())
