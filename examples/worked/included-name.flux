# Rename on a name writes a label over the content of its label row; that lies in the name again.

labels a = 1

type X = a[X*]

from X
to X

fuel check 2, run 0

script
  rename a
