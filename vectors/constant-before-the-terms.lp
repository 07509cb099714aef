min C: - 5 + X
end
