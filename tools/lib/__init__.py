"""What the tools share (README.md)."""
