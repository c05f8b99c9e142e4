from () to text
script insert "a\q"
