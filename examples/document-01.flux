# Document 01's worked example: script S, the forest of P1, the types of P3.

labels a = 1, b = 2, c = 3, d = 4

from a[b[]*, c[], b[]*], d[]
to a[(b[], c[])*, c[], (b[], c[])*], d[]

script
  iter [a? children [iter [b? right [insert c[]]]]]

forest
  a[b[], c[], b[]], d[]
