min
st
1e-10 <= x + y <= 1e19
end
