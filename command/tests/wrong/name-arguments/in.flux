from () to ()
procedure p(x: text) from () to () = skip
script p("a", "b")
