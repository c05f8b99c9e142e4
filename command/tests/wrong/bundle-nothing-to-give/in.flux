from () to ()
script skip
forest ()
