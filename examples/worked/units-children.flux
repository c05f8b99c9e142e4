# Children of a variable that is a text are (), and that row is the last unit.

from text
to ()

fuel check 10, run 0

script
  snapshot x in (delete; insert for t in x return children(t))
