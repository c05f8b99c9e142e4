from () to text
script insert if ("a", "b") then "c" else "d"
