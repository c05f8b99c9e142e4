from () to ()
script insert 70000
