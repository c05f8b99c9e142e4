# A call with a bad focus and a bad argument: the focus is asked before the argument is typed, so 9.

labels a = 1

from a[]
to ()

fuel check 9, run 0

procedure kept(x: text)
  from ()
  to () =
  skip

script
  kept("ab" = true)
