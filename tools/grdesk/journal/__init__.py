"""The journal of acts: each is kept there, waits there if it is held, and is entered again from there."""
