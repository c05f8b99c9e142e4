labels a = 1, a = 2
from () to ()
script skip
