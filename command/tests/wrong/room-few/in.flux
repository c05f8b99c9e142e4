labels a
script skip
forest a[], a[], a[]
