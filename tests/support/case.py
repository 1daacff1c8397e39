"""A test with folders of its own, which are gone after it."""
import tempfile
import unittest
from pathlib import Path


class Case(unittest.TestCase):
    """A test. Its messages have the whole of what they compare."""

    maxDiff = None

    def folder(self):
        """A new folder, gone after the test."""
        place = tempfile.TemporaryDirectory()
        self.addCleanup(place.cleanup)
        return Path(place.name)

    @classmethod
    def shared_folder(cls):
        """A new folder, gone after the last test of the class, for a `setUpClass`."""
        place = tempfile.TemporaryDirectory()
        cls.addClassCleanup(place.cleanup)
        return Path(place.name)

    def enter(self, context):
        """Enters a context, which ends with the test, and gives what it yields."""
        value = context.__enter__()
        self.addCleanup(context.__exit__, None, None, None)
        return value
