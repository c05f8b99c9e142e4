from () to ()
procedure p(x: text, y: text, z: text) from () to () = skip
script skip
