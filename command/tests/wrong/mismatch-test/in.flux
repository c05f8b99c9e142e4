labels a, b
from (a[] | b[])* to ()
script
  a? delete
