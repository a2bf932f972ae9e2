"""Hostile use of the built programs (README.md)."""
