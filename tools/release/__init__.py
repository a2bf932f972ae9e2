"""Releases, and what is tried of them (README.md)."""
