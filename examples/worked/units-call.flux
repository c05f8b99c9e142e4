# One purse for body and main: 2 units for the body, 5 for the call and its arguments.

labels a = 1, b = 2

from a[]
to b[]

fuel check 7, run 0

procedure named(x: text, y: bool)
  from a[]
  to b[] =
  rename b

script
  named("ab", true)
