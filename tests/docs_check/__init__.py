"""The parts of tests/docs, which checks the documents."""
