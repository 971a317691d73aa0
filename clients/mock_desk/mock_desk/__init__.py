"""The desk, unproved: what docs/api.md says, in plain Python and nothing beside it.

For programmers of clients who have no built desk, and as an independent reading of the rules: tests/test_mock.py plays
random streams here and at the program, and compares every byte.
"""
