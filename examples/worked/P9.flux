# P9: children on a text is Stuck, 1 unit.

from text
to text

fuel check 4096, run 1

script
  children [skip]

forest
  "ab"
