labels a
script insert a[]
forest a[]
