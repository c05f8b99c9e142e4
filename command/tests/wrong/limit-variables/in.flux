from () to text
script
  let x0 = "a" in
  let x1 = "a" in
  let x2 = "a" in
  let x3 = "a" in
  let x4 = "a" in
  let x5 = "a" in
  let x6 = "a" in
  let x7 = "a" in
  let x8 = "a" in
  let x9 = "a" in
  let x10 = "a" in
  let x11 = "a" in
  let x12 = "a" in
  let x13 = "a" in
  let x14 = "a" in
  let x15 = "a" in
  let x16 = "a" in
  insert x0
