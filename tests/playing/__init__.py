"""The parts of tests/run, each in a module by what it is about, and what they share."""
