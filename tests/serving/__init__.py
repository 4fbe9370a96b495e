"""The parts of tests/http, each in a module by what it is about, and what they share."""
