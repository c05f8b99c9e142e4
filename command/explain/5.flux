# Two statements and their `;` take 3 units.
from () to ()
fuel check 2, run 4096
script skip; skip
