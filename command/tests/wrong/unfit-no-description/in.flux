from text to text
script skip
