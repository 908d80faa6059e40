"""Reads scripts and what is printed of them; tools/explain and tools/picture both stand on it."""
