"""The desk: its file, its sheets and rows, copies of it, and where it is reached."""
