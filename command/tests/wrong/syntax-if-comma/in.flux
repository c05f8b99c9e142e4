labels a, b, c
from () to a[], b[]
script insert if true then a[], b[] else b[], c[]
