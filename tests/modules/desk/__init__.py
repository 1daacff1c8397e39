"""Tests of how the tools read, copy and ask a desk."""
