min
st
x + y >= inf
end
