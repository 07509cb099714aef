min x
st
- - inf <= x
end
