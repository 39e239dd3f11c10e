"""The tests of the repository, but for those of the crates."""
