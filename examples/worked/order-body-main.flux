# A bad body and a main output that is not included: the body is told.

labels a = 1, b = 2

from a[]
to b[]

fuel check 2, run 0

procedure named()
  from text
  to a[] =
  rename a

script
  skip
