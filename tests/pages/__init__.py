"""Tests of the pages: links, names, limits, versions, sentences."""
