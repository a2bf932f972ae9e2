"""Lines of the program, and what they must write (README.md)."""
