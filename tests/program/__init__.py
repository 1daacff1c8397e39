"""Tests of the program as it was built: lines, requests, votes, stops, kills, memory, disks, peers, kept bytes."""
