# A test that does not match types no part: 1 unit, and the part that would be a Mismatch is not met.

labels a = 1

from text
to text

fuel check 1, run 0

script
  a? insert a[]
