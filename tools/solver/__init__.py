"""A second solver, which shares nothing with the program (README.md)."""
