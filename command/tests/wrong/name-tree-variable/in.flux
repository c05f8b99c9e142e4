from text to text
script snapshot x in (delete; insert children(x))
