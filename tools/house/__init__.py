"""How the repository is laid out, for the tests that hold it."""
