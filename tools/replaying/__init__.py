"""The parts of tools/replay."""
