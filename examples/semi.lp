\ the same knapsack; fuel is left out, or is 0.8 to 2 litres
max
 use: 90 tent + 60 stove + 15 book + 24 fuel
such that
 weight: 2.8 tent + 0.8 stove + 0.4 book + 1.2 fuel <= 4.5
 burnt: 0.5 stove - fuel <= 0
bounds
 0.8 <= fuel <= 2
binaries
 tent stove book
semi-continuous
 fuel
end
