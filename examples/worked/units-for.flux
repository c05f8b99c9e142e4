# For visits a star and its atom, types its body once, and rebuilds the star last.

labels a = 1

from a[text]*
to text*

fuel check 11, run 0

script
  snapshot x in (delete; insert for t in x return children(t))
