"""The parts of gate/rename.py: reading a checkout, resolving its names, and writing it again under other names."""
