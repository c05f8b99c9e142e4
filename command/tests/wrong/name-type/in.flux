from X to X
script skip
