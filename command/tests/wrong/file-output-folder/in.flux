from () to ()
script skip
