# Insert on a focus that is not empty: Stuck before its query starts.

labels a = 1

from a[]
to a[]

fuel check 4096, run 1

script
  insert a[]

forest
  a[]
