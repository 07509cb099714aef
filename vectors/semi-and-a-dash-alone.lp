min x
semi - x
end
