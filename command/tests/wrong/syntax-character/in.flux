from () to ()
script skip & skip
