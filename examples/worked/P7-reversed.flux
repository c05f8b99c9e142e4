# P7, the reverse: (a|b)* does not lie in a*, so the main output is not included.

labels a = 1, b = 2

from (a[] | b[])*
to a[]*

fuel check 1, run 0

script
  skip
