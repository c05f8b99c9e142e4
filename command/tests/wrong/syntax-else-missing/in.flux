from () to ()
script if true then skip
