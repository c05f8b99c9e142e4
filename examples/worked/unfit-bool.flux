# Unfit at row 2, the bool: a text is wanted there. The text behind it is not looked at.

labels a = 1

from a[text]
to a[text]

script
  skip

forest
  a[true, "x"]
