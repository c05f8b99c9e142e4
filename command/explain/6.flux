# A procedure that calls itself for ever.
from () to ()
procedure again() from () to () = again()
script again()
