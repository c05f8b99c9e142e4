fuel check 4096, run 9
labels a, b
from a[]* to b[]*
script iter [rename b]
forest a[], a[], a[], a[]
