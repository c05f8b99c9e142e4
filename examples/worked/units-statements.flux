# Each statement that writes a row, and most that write none; the label of children is the last unit.

labels a = 1, b = 2

from a[b[]]
to a[b[] | ()]

fuel check 33, run 0

script
  children [
    b? rename a;
    a? snapshot x in left [skip];
    let y = () in right [insert y];
    delete;
    if true then insert b[] else skip
  ]
