from () to ()
procedure again() from () to () = again()
script again()
