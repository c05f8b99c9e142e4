labels machine, name
forest
  machine[name["tiny"]]
