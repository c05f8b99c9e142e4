labels a
type X = a[]
type Y = a[]
forest a[]
