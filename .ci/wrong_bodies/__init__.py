"""The parts of ./wrong-bodies at the top of the repository."""
