# P5: iter on () gives (), 1 unit.

from ()
to ()

fuel check 4096, run 1

script
  iter [delete]
