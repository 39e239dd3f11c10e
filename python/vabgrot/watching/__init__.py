"""What a watched link says: how a capture is fed, what is counted of all of it, what is looked at, and how it is shown."""
