# A procedure that never yields what it declares: not included, row 0, though nothing calls it.

labels a = 1

from ()
to ()

fuel check 1, run 0

procedure made()
  from ()
  to a[] =
  skip

script
  skip
