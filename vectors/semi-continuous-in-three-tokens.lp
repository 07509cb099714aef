max 3 + x
bounds
1 <= x <= 4
semi-
continuous
x
end
