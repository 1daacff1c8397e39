"""Tests of the pages that are published."""
