# The type found is a*, a, which would be tied if it were declared; it lies in a* all the same.

labels a = 1

from a[]*
to a[]*

fuel check 7, run 0

script
  right [insert a[]]
