"""What the tests share: runs of the program and of tools, desks, journals, ballots, pages."""
