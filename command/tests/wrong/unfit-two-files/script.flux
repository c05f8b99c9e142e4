labels machine, cost
from machine[cost[text]]
to machine[cost[text]]
script skip
