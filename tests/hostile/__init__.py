"""The built program over inputs that are made to harm it."""
