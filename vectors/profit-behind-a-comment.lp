\ plan
max
 profit: 3 x + 2 y
st
 limit: x
 + y <= 4
bounds
 x <= 3
end
[ anything 
