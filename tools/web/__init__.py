"""Pages with the engine (README.md)."""
