"""Records that are played again."""
