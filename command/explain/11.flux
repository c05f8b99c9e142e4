# `run` goes without the check: insert needs an empty focus.
labels a = 1
from a[] to a[]
script insert a[]
forest a[]
