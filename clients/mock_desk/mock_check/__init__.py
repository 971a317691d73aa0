"""Random streams of requests, played at the mock desk and at the program, and compared byte for byte.

tests/test_mock.py plays them. A *history* is a list of starts over one store; a *start* is a line of `play` and
the requests that it is given. Everything that is random comes from one seed and the history's number.
"""
