# The first argument is not included, the second has a Mismatch of its own: both are typed first, so 8.

from ()
to ()

fuel check 9, run 0

procedure kept(x: text, y: bool)
  from ()
  to () =
  skip

script
  kept(true, "ab" = false)
