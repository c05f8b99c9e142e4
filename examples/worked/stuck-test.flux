# Test on two trees: Stuck.

labels a = 1, b = 2

from a[], b[]
to a[], b[]

fuel check 4096, run 1

script
  a? delete

forest
  a[], b[]
