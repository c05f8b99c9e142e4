# The condition of a statement's if is a text: Mismatch at the if.

from ()
to ()

fuel check 3, run 0

script
  if "yes" then skip else delete
