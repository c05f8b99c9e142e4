# A main output of 2^32 rows, which is 0 to whoever counts in 32 bits: Wide. Each if doubles the focus.

labels a = 1

from a[]
to a[]

fuel check 218, run 0

script
  children [
    if true then skip else skip; if true then skip else skip; if true then skip else skip;
    if true then skip else skip; if true then skip else skip; if true then skip else skip;
    if true then skip else skip; if true then skip else skip; if true then skip else skip;
    if true then skip else skip; if true then skip else skip; if true then skip else skip;
    if true then skip else skip; if true then skip else skip; if true then skip else skip;
    if true then skip else skip; if true then skip else skip; if true then skip else skip;
    if true then skip else skip; if true then skip else skip; if true then skip else skip;
    if true then skip else skip; if true then skip else skip; if true then skip else skip;
    if true then skip else skip; if true then skip else skip; if true then skip else skip;
    if true then skip else skip; if true then skip else skip; if true then skip else skip;
    if true then skip else skip
  ]
