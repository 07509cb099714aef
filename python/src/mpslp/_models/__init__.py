"""Models: their parts, arrays, numbers and differences."""
