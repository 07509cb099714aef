"""MPS and LP as texts: their words, names, numbers, lines and tokens, and where things are in an accepted file."""
