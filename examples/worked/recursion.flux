# A main row that calls a procedure that only calls itself: Depth at fuel 200, Fuel at 199.

from ()
to ()

fuel check 4096, run 200

procedure again()
  from ()
  to () =
  again()

script
  again()
