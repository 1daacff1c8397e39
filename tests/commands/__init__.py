"""Tests of the commands of gr-desk: test_NAME.py for each, and further modules whose names begin so."""
