min x
st
x + 3 <= 5
end
