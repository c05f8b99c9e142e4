labels a
from a[]* to a[]*
script children [skip]
