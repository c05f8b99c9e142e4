# Two trees of one head, each with a content of its own, lie in the one tree with either content.

labels a = 1, b = 2, c = 3

from ()
to a[b[] | c[]]

fuel check 17, run 0

script
  insert if true then a[b[]] else a[c[]]
