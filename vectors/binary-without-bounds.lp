min C: X binaries X end
