min x
st
inf + x <= 1
end
