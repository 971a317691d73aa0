"""A map of an operator's flights: one page for the operator's own browser, served at 127.0.0.1."""
