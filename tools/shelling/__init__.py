"""The parts of tools/shell."""
