min x
st
x >= 2 y
end
