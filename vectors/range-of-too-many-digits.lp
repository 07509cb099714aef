min
st
1e-20 <= x + y <= 1e19
end
