# A condition and a branch that are both bad: the condition is asked before its branches are typed.

labels a = 1

from ()
to ()

fuel check 9, run 0

script
  if "yes" then rename a else rename a
