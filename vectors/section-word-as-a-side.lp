min x
st
x <= bounds
end
