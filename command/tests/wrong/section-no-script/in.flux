from () to ()
