type X = text
from () to ()
script skip
