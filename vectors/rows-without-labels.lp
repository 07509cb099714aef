min x
st
x >= 1
c2: x <= 5
x <= 4
end
