# Insert on a focus that may be empty but need not be: Mismatch before its query is typed.

labels a = 1

from a[]*
to a[]

fuel check 1, run 0

script
  insert a[]
