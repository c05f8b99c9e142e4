# Unfit at row 1, as the table has it; in the order of a result c would be row 2.

labels a = 1, b = 2, c = 3, d = 4

from a[b[]], d[]
to a[b[]], d[]

script
  skip

forest
  a@3[c@1[]], d@2[]
