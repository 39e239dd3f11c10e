"""The documents against what they are about."""
