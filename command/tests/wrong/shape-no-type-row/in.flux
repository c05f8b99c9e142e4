from text to text
forest "a"
