min
st
5 <= x + y <= 3
end
