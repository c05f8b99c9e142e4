# Rename on a text: Mismatch.

labels a = 1

from text
to a[]

fuel check 1, run 0

script
  rename a
