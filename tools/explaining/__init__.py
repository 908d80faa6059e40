"""The parts of tools/explain."""
