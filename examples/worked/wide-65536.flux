# A main output of 65,536 rows, which is 0 to whoever counts in 16 bits: Wide.

labels a = 1

from ()
to a[]

fuel check 82, run 0

script
  insert
    let x0 = () in
    let x1 = x0, x0 in
    let x2 = x1, x1 in
    let x3 = x2, x2 in
    let x4 = x3, x3 in
    let x5 = x4, x4 in
    let x6 = x5, x5 in
    let x7 = x6, x6 in
    let x8 = x7, x7 in
    let x9 = x8, x8 in
    let x10 = x9, x9 in
    let x11 = x10, x10 in
    let x12 = x11, x11 in
    let x13 = x12, x12 in
    let x14 = x13, x13 in
    let x15 = x14, x14 in
    a[x15]
