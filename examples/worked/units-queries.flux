# Queries that write a row, and let and variable, which write none; the outer join is the last unit.

labels a = 1

from ()
to a[text], bool, (bool | ())

fuel check 24, run 0

script
  insert let x = "ab" in (a[x], x = "cd", if true then false else ())
