min
st
1 <= x + y <= 1e20
bounds x free
end
