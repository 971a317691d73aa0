"""Where things are in the repository."""

from __future__ import annotations

import pathlib

TESTS = pathlib.Path(__file__).resolve().parent.parent
TOP = TESTS.parent
EXAMPLES = TOP / "examples"
DEPLOY = TOP / "deploy"
TOOLS = TOP / "tools"
DOCS = TOP / "docs"
CLIENTS = TOP / "clients"
CRATES = TOP / "crates"
