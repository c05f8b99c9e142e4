# Unfit at row 1, the second text: a bool is wanted there.

labels a = 1

from a[text, bool]
to a[text, bool]

script
  skip

forest
  a["x", "y"]
