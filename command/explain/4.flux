# At an a, which of the two places is it?
labels a = 1
from a[]*, a[] to a[]*, a[]
script skip
