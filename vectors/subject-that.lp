min x
subject that
x <= 1
end
