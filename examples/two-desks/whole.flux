labels pattern = 1, op = 2, operand = 3, emit = 4

forest
  pattern[op["halt"], emit["hlt"]],
  pattern[op["load"], operand["reg"], operand["mem"], emit["ld $1, $2"]],
  pattern[op["add"], operand["reg"], operand["reg"], emit["add $1, $2"]]
