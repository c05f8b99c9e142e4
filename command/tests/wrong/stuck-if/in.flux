script snapshot x in if x then skip else skip
forest "x"
