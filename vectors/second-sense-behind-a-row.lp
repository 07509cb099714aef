min x
st
x <= 4 <= 5
end
