min x
st
1 <= x >= 0
end
