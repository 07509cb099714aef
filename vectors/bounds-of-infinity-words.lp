min C: X bounds -inf <= X <= infinity end
