min x
semi continuous
end
