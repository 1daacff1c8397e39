"""Ballots that come by mail: how they are read, which are sent, and what each voter is answered."""
