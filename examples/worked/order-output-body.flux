# A bad output, a bad body and a bad main statement: the output is asked right after its body, so 9.

labels a = 1

from text
to a[]

fuel check 4, run 0

procedure first()
  from ()
  to a[] =
  skip

procedure second()
  from text
  to a[] =
  rename a

script
  rename a
