# Two bad bodies: the procedure of lower number is told, though its row is the higher.

labels a = 1

from ()
to ()

fuel check 4, run 0

procedure first()
  from text
  to a[] =
  rename@3 a

procedure second()
  from text
  to a[] =
  rename@2 a

script
  skip@1
