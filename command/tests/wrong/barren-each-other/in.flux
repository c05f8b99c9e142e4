labels a, b
type Tree = a[Branch, Branch]
type Branch = b[Tree]
from () to ()
script skip
