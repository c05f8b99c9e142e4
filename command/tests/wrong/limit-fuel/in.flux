fuel check 4097, run 1
from () to ()
script skip
