labels a
script a? skip
forest ()
