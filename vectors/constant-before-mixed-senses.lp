min x
st
1 <= 3 >= x
end
