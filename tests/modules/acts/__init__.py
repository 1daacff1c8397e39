"""Tests of acts: what is known of one before it is sent, and what is said of its answer."""
