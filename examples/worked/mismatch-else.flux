# Both branches are typed, whatever the condition: Mismatch in the one that is never taken.

labels a = 1

from ()
to ()

fuel check 5, run 0

script
  if true then skip else rename a
