fuel check 9, run 4096
from () to ()
procedure p() from () to () = skip
procedure q() from () to () = skip; skip; skip; skip; skip
script q()
