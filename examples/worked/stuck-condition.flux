# A condition that is a text: Stuck at the if, before its branch starts.

from ()
to ()

fuel check 4096, run 3

script
  if "yes" then skip else delete
