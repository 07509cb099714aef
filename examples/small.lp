\ the model of small.mps
MIN
COST: 2Y + X
s.t.
MYG: 1.5 Y => 1
LIM1: X
 <= 4
END
