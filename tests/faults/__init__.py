"""Faults that are put into the built program."""
