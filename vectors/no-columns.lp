min
end
