# Rename on a bool: Stuck.

labels a = 1

from bool
to a[]

fuel check 4096, run 1

script
  rename a

forest
  true
