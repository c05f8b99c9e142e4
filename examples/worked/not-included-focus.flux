# A call on b, where the procedure takes a: not included, at the call.

labels a = 1, b = 2

from b[]
to a[]

fuel check 2, run 0

procedure kept()
  from a[]
  to a[] =
  skip

script
  kept()
