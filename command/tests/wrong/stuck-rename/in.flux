labels a
script rename a
forest a[], a[]
