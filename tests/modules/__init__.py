"""Tests of the modules of the tools, room by room: test_NAME.py, and further modules whose names begin so."""
