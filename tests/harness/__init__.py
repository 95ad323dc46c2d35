"""What the tests of built programs and the trials have in common."""
