\ the same model
MIN
COST: 2ü + X
s.t.
MYG: 1.5 Y => 1
LIM1: X
 <= 4
END
