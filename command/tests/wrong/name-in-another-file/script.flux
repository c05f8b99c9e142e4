# Renames what it does not know.
labels name
script
  children [iter [pattern? rename name]]
