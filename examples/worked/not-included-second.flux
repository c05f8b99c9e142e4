# A text as second argument, where the procedure takes a bool: not included, at the call.

from ()
to ()

fuel check 6, run 0

procedure kept(x: text, y: bool)
  from ()
  to () =
  skip

script
  kept("ab", "ab")
