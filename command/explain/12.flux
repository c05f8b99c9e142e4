# The check's fuel is 4096, so it needs 4096 working rows.
from () to ()
script skip
