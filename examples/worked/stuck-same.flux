# Same of a text and a bool: Stuck at the query, once both have run.

from ()
to bool

fuel check 4096, run 6

script
  insert "ab" = true
