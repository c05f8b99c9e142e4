from () to ()
procedure q() from () to () = q()
procedure p()
  from ()
  to () = insert "x"
script p()
