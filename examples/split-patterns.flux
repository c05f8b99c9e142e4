# A pattern list split in two by a flag of each pattern: the plain ones, then the slow ones.

labels patterns = 1, pattern = 2, op = 3, slow = 4, emit = 5, plain-list = 6, slow-list = 7

type Pattern = pattern[op[text], slow[bool], emit[text]]

from patterns[Pattern*]
to plain-list[Pattern*], slow-list[Pattern*]

script
  snapshot whole in
  let all = for list in whole return children(list) in (
    delete;
    insert
      plain-list[
        for p in all return
        if for s in children(p) :: slow return children(s) then () else p
      ],
      slow-list[
        for p in all return
        if for s in children(p) :: slow return children(s) then p else ()
      ]
  )

forest
  patterns[
    pattern[op["add"], slow[false], emit["add $1, $2"]],
    pattern[op["div"], slow[true], emit["call divide"]],
    pattern[op["sub"], slow[false], emit["sub $1, $2"]]
  ]
