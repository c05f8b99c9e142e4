labels a = 1, b = 1
from () to ()
script skip
