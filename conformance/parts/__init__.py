"""The parts of the programs in this folder, a concept a file."""
