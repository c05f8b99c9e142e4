labels pattern = 1, op = 2, operand = 3, emit = 4

forest
  pattern[op["halt"], emit["hlt"]]
