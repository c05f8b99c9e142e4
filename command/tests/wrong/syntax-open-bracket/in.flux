labels a
from a[text to a[text]
script skip
