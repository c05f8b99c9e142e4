# A query nested under its statement: the last row would start at depth 201, Depth; with one unit less Fuel.

labels a = 1

from ()
to ()

fuel check 200, run 0

script
  insert ()
  :: a :: a :: a :: a :: a :: a :: a :: a :: a :: a :: a :: a :: a :: a :: a :: a :: a :: a :: a :: a
  :: a :: a :: a :: a :: a :: a :: a :: a :: a :: a :: a :: a :: a :: a :: a :: a :: a :: a :: a :: a
  :: a :: a :: a :: a :: a :: a :: a :: a :: a :: a :: a :: a :: a :: a :: a :: a :: a :: a :: a :: a
  :: a :: a :: a :: a :: a :: a :: a :: a :: a :: a :: a :: a :: a :: a :: a :: a :: a :: a :: a :: a
  :: a :: a :: a :: a :: a :: a :: a :: a :: a :: a :: a :: a :: a :: a :: a :: a :: a :: a :: a :: a
  :: a :: a :: a :: a :: a :: a :: a :: a :: a :: a :: a :: a :: a :: a :: a :: a :: a :: a :: a :: a
  :: a :: a :: a :: a :: a :: a :: a :: a :: a :: a :: a :: a :: a :: a :: a :: a :: a :: a :: a :: a
  :: a :: a :: a :: a :: a :: a :: a :: a :: a :: a :: a :: a :: a :: a :: a :: a :: a :: a :: a :: a
  :: a :: a :: a :: a :: a :: a :: a :: a :: a :: a :: a :: a :: a :: a :: a :: a :: a :: a :: a :: a
  :: a :: a :: a :: a :: a :: a :: a :: a :: a :: a :: a :: a :: a :: a :: a :: a :: a :: a :: a
