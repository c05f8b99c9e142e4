# An atom followed by () is no atom as written: Mismatch at a test of any tree.

labels a = 1

from a[], ()
to a[]

fuel check 1, run 0

script
  node()? skip
