# A test asks about one tree, and here are many: iter [a? skip] asks each.
labels a = 1, b = 2
from (a[] | b[])* to (a[] | b[])*
script a? skip
