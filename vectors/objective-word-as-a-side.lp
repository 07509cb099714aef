min x
st
x <= max
end
