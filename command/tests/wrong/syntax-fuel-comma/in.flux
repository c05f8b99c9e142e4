fuel check 1 run 1
from () to ()
script skip
