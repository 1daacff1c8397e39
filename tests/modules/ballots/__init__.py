"""Tests of ballots: mails, forms, what becomes of each, and the answers to voters."""
