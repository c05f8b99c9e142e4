from () to ()
procedure p(done: bool) from () to () =
  if done then skip else p(done);
  p(done)
script p(true)
