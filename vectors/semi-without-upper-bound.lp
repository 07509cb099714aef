min x
semis
x
end
