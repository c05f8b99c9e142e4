from () to text*
script skip
forest "a",
