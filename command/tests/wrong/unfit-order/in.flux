labels op, operand, emit, cost
from op[text], operand[text]*, emit[text], (cost[text] | ()) to text
script delete; insert "x"
forest
  op["add"], emit["add"], operand["reg"]
