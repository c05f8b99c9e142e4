# A query nested under its statement: the last row starts at depth 200, and the check is done.

labels a = 1

from ()
to ()

fuel check 399, run 0

script
  insert ()
  :: a :: a :: a :: a :: a :: a :: a :: a :: a :: a :: a :: a :: a :: a :: a :: a :: a :: a :: a :: a
  :: a :: a :: a :: a :: a :: a :: a :: a :: a :: a :: a :: a :: a :: a :: a :: a :: a :: a :: a :: a
  :: a :: a :: a :: a :: a :: a :: a :: a :: a :: a :: a :: a :: a :: a :: a :: a :: a :: a :: a :: a
  :: a :: a :: a :: a :: a :: a :: a :: a :: a :: a :: a :: a :: a :: a :: a :: a :: a :: a :: a :: a
  :: a :: a :: a :: a :: a :: a :: a :: a :: a :: a :: a :: a :: a :: a :: a :: a :: a :: a :: a :: a
  :: a :: a :: a :: a :: a :: a :: a :: a :: a :: a :: a :: a :: a :: a :: a :: a :: a :: a :: a :: a
  :: a :: a :: a :: a :: a :: a :: a :: a :: a :: a :: a :: a :: a :: a :: a :: a :: a :: a :: a :: a
  :: a :: a :: a :: a :: a :: a :: a :: a :: a :: a :: a :: a :: a :: a :: a :: a :: a :: a :: a :: a
  :: a :: a :: a :: a :: a :: a :: a :: a :: a :: a :: a :: a :: a :: a :: a :: a :: a :: a :: a :: a
  :: a :: a :: a :: a :: a :: a :: a :: a :: a :: a :: a :: a :: a :: a :: a :: a :: a :: a
