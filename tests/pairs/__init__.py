"""Pairs of histories that one operator can't tell apart, and lines of sizes at which a desk could give up."""
