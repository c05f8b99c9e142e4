# An instruction-set description whose patterns get a cost: "3" for a load, "1" for all else.

labels machine = 1, name = 2, pattern = 3, op = 4, operand = 5, emit = 6, cost = 7

type Pattern = pattern[op[text], operand[text]*, emit[text]]
type Costed = pattern[op[text], operand[text]*, emit[text], cost[text]]

from machine[name[text], Pattern*]
to machine[name[text], Costed*]

script
  children [iter [pattern?
    snapshot found in
    let operation = for p in found return for o in children(p) :: op return children(o) in
    children [right [insert cost[if operation = "load" then "3" else "1"]]]
  ]]

forest
  machine[
    name["tiny"],
    pattern[op["load"], operand["reg"], operand["mem"], emit["ld $1, $2"]],
    pattern[op["add"], operand["reg"], operand["reg"], emit["add $1, $2"]],
    pattern[op["halt"], emit["hlt"]]
  ]
