# Insert on a focus of 513 rows: Wide, though only () is of it; with 512 done.

from ()*
to ()

fuel check 4096, run 0

script
  snapshot s in (insert
    let x0 = () in
    let x1 = x0, x0 in
    let x2 = x1, x1 in
    let x3 = x2, x2 in
    let x4 = x3, x3 in
    let x5 = x4, x4 in
    let x6 = x5, x5 in
    let x7 = x6, x6 in
    (x7, x6, x5, x4, x3, x2, x1, (), (), ());
  insert ())
