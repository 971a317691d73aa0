"""Debian's packages of the program and of the clients."""
