min 1e501 x
end
