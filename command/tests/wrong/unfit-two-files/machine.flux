labels machine = 7, cost = 9
forest machine[
  cost[true]
]
