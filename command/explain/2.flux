# The types have two rows, and there is no row 9. Other broken rules of a text are told by the notation, with their line.
from () to ()
script skip
