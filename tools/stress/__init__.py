"""Scripts that run the programs over drawn, mutated or starved input, with the tests that run a part of each."""
