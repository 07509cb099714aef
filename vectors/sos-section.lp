min x
st
sos1
end
