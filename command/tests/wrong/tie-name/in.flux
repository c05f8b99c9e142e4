labels op, list
type Op = op[text]
from list[
  Op*,
  op[text]
]
to ()
script delete
