# P3 with the fuel that its check takes; with one unit less it is P4, Fuel.

labels a = 1, b = 2, c = 3, d = 4

from a[b[]*, c[], b[]*], d[]
to a[(b[], c[])*, c[], (b[], c[])*], d[]

fuel check 38, run 33

script
  iter [a? children [iter [b? right [insert c[]]]]]

forest
  a[b[], c[], b[]], d[]
