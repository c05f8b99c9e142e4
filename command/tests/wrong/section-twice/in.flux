from () to ()
script skip
script skip
