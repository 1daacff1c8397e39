"""Tests of journals, and of acts on their way to a desk."""
