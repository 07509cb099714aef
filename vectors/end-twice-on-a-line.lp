min x
st
x <= 1
end end
