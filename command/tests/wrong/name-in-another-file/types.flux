labels machine, name
from machine[name[text]]
to machine[name[text]]
