"""Files of a desk that are damaged."""
