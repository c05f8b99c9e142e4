from () to ()
script
