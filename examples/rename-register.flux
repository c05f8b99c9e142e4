# A register renamed everywhere, however deep it stands in an address: "acc" becomes "r0".

labels block = 1, insn = 2, op = 3, operands = 4, reg = 5, const = 6, mem = 7

type Reg = reg[text]
type Const = const[text]
type Address = mem[(Reg | Const | Address)*]
type Insn = insn[op[text], operands[(Reg | Const | Address)*]]

from block[Insn*]
to block[Insn*]

procedure renamed(old: text, new: text)
  from (Reg | Const | Address)*
  to (Reg | Const | Address)* =
  iter [
    reg? children [snapshot held in if held = old then (delete; insert new) else skip];
    mem? children [renamed(old, new)]
  ]

script
  children [iter [children [iter [operands? children [renamed("acc", "r0")]]]]]

forest
  block[
    insn[op["load"], operands[reg["acc"], mem[reg["sp"], const["8"]]]],
    insn[op["add"], operands[reg["acc"], reg["r1"]]],
    insn[op["store"], operands[mem[mem[reg["acc"]], const["4"]], reg["r1"]]]
  ]
