min x
st
[ x ^ 2 ] <= 1
end
