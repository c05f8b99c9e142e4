from () to bool
script insert ("a" = ("b", "c"))
