"""The parts of tools/growths: it runs a program with a growth refused, and says what must come."""
