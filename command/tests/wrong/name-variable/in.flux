from () to text
script let x = "a" in insert y
