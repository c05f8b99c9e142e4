from text, text | text
to ()
script delete
