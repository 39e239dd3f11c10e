"""A live link, received part by part: its events, frames and sound as arrays, and the output formats."""
