"""The tools as they are run."""
