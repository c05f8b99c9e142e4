labels a
type X = a[X*]
forest a[a[], "x"]
