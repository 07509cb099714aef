min
st
-9e19 <= x + y <= 9e19
end
