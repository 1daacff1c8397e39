"""What is packed and installed, made of the sources; this room is not installed."""
