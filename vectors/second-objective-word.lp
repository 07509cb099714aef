min x
st
max
end
