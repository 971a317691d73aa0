"""The page of clients/map in a browser."""
