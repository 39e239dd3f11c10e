"""The built program where what it asks for is refused."""
