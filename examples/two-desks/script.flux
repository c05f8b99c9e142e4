# Each pattern of a list gets a cost: "3" for a load, "1" for all else. What the script does to one pattern reads nothing outside it.

labels pattern = 1, op = 2, operand = 3, emit = 4, cost = 5

type Pattern = pattern[op[text], operand[text]*, emit[text]]
type Costed = pattern[op[text], operand[text]*, emit[text], cost[text]]

from Pattern*
to Costed*

script
  iter [
    snapshot found in
    let operation = for p in found return for o in children(p) :: op return children(o) in
    children [right [insert cost[if operation = "load" then "3" else "1"]]]
  ]
