# A loop over mixed content: each text and each bool has no children, and writes its ().

labels a = 1, b = 2

from (text | a[b[]*] | bool)*
to b[]*

pool "one"

fuel check 21, run 14

script
  snapshot x in (delete; insert for t in x return children(t))

forest
  "one", a[b[], b[]], true
