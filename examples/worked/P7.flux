# P7: a* lies in (a|b)*.

labels a = 1, b = 2

from a[]*
to (a[] | b[])*

fuel check 1, run 0

script
  skip
