min x
st
1 = x <= 3
end
