# Children on a text, P9's script: Mismatch at the children, before its part is typed.

from text
to text

fuel check 1, run 0

script
  children [skip]
