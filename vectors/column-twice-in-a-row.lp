min x
st
x + x <= 1
end
