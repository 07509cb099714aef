min x
st
semis
end
