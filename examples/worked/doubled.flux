# A tree of 65,536 rows, each half written out each time: Room, however many rows are lent.

labels a = 1

from ()
to a[text]

fuel check 4096, run 113

script
  insert
    let x0 = a[] in
    let x1 = a[x0, x0] in
    let x2 = a[x1, x1] in
    let x3 = a[x2, x2] in
    let x4 = a[x3, x3] in
    let x5 = a[x4, x4] in
    let x6 = a[x5, x5] in
    let x7 = a[x6, x6] in
    let x8 = a[x7, x7] in
    let x9 = a[x8, x8] in
    let x10 = a[x9, x9] in
    let x11 = a[x10, x10] in
    let x12 = a[x11, x11] in
    let x13 = a[x12, x12] in
    let x14 = a[x13, x13] in
    let x15 = a[x14, x14] in
    a[x15]
