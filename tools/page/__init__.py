"""Pages of the program, made anew and tried (README.md)."""
