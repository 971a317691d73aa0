"""The client in Python and the bridge from InterUSS (clients/), at a desk behind nginx."""
