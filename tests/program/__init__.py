"""The built program as it is run."""
