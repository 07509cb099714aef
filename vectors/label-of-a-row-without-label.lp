min x
st
x >= 1
c2: x <= 5
x <= 4
c3: x <= 9
end
