# The () in place of an atom picked away is the last unit.

labels a = 1, b = 2

from b[]
to ()

fuel check 9, run 0

script
  snapshot x in (delete; insert x :: a)
