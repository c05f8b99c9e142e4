# P5's script: the visit of () is the last unit.

from ()
to ()

fuel check 2, run 0

script
  iter [delete]
