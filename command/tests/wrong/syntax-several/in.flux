labels a, b
type X = c[]
from d[] to X
script
  rename e; frob();
  insert $
