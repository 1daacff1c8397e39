"""An act before it is sent, what speaks against it, and what its answer means."""
