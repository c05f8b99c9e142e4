# The heads agree, the contents do not: not included.

labels a = 1, b = 2, c = 3

from a[b[]]
to a[c[]]

fuel check 1, run 0

script
  skip
