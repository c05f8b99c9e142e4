# A condition of 513 rows that is no bool: Wide before Mismatch; a[x8] has 512 rows and is Mismatch.

labels a = 1

from ()
to ()

fuel check 4096, run 0

script
  let x0 = () in
  let x1 = x0, x0 in
  let x2 = x1, x1 in
  let x3 = x2, x2 in
  let x4 = x3, x3 in
  let x5 = x4, x4 in
  let x6 = x5, x5 in
  let x7 = x6, x6 in
  let x8 = x7, x7 in
  if x8, () then skip else skip
