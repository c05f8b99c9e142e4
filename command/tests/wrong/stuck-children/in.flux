labels a
script iter [children [skip]]
forest a[], "x"
