labels a = 1024
from () to ()
script skip
