from () to ()
script [31mskip
