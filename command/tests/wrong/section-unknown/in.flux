form () to ()
script skip
