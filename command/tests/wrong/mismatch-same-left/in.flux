from () to bool
script insert (true = "a")
