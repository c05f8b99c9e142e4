from () to ()
script if "yes" then skip else skip
