min x + y
bounds
x >= 2
binaries
x
generals
z
end
