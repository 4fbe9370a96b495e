"""The parts of tests/packaging, each in a module by what it is about, and what they share."""
