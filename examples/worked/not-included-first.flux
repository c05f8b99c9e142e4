# A bool as first argument, where the procedure takes a text: not included, at the call.

from ()
to ()

fuel check 4, run 0

procedure kept(x: text)
  from ()
  to () =
  skip

script
  kept(true)
