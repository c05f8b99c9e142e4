fuel check 12, run 4096
labels a, b
from a[]* to b[]*
script
  iter [rename b];
  iter [rename a];
  iter [rename b]
