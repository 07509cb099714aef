min x + y
bounds
x = 1
binaries
x
generals
z
end
