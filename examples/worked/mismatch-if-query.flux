# The condition of a query's if may be a text: Mismatch at the if, before its branches are typed.

from ()
to bool

fuel check 4, run 0

script
  insert if "yes" then true else false
