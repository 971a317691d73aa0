"""Files that are a desk's tables, or nearly, and what the program says of them, moves and copies."""
