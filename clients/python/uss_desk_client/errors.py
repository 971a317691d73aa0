"""The error that all errors of this client are."""
from __future__ import annotations


class DeskError(Exception):
    """What was asked wasn't done, or isn't known to be done. Each error that this client raises of its own is one."""
