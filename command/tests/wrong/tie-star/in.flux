labels a
from a[]*, a[]
to ()
script delete
