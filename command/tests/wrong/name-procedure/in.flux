from () to ()
script tidy()
