"""What is outside: files and their compression, standard output, processes."""
