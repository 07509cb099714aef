min x
st
c: y = 1 -> x <= 3
end
