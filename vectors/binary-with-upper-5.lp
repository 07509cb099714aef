min x + y
bounds
x <= 5
binaries
x
generals
z
end
