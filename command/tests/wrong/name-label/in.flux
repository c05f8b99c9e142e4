labels a
from a[], b[] to ()
script delete
