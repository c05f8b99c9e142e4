labels a
script skip
forest a[]
