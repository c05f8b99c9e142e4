labels a
from () to ()
script let x = a[] in insert x/child
