"""Operators and plans, in memory, and in a file of SQLite if one is named. (No program but this one reads the file.)"""
from __future__ import annotations

import json
import sqlite3
from typing import Dict, NamedTuple, Tuple

from .bodies import Volume, shown_volume, volume_shown

SCHEMA = """
CREATE TABLE IF NOT EXISTS mock_operator (name TEXT PRIMARY KEY, ceiling INTEGER NOT NULL);
CREATE TABLE IF NOT EXISTS mock_plan (operator TEXT, id TEXT, plan TEXT NOT NULL, PRIMARY KEY (operator, id));
"""


class Plan(NamedTuple):
    """What an operator has stored under an id."""

    priority: int
    usage: str
    aircraft: str
    area: Tuple[Volume, ...]


class Store:
    """Ceilings by operator, and plans by operator and id."""

    def __init__(self, path: str = ":memory:") -> None:
        """Opens a file, which is made if it isn't there; raises sqlite3.Error."""
        self.file = sqlite3.connect(path, isolation_level=None)
        self.file.executescript(SCHEMA)
        self.ceilings: Dict[str, int] = dict(self.file.execute("SELECT name, ceiling FROM mock_operator"))
        self.plans: Dict[str, Dict[str, Plan]] = {name: {} for name in self.ceilings}
        for operator, plan_id, text in self.file.execute("SELECT operator, id, plan FROM mock_plan"):
            priority, usage, aircraft, area = json.loads(text)
            self.plans[operator][plan_id] = Plan(priority, usage, aircraft, tuple(map(volume_shown, area)))

    def enrol(self, name: str, ceiling: int) -> None:
        """Enrols an operator, or replaces its ceiling."""
        self.file.execute("REPLACE INTO mock_operator VALUES (?, ?)", (name, ceiling))
        self.ceilings[name] = ceiling
        self.plans.setdefault(name, {})

    def save(self, operator: str, plan_id: str, plan: Plan) -> None:
        """Stores a plan in the place of the one with its id."""
        text = json.dumps([plan.priority, plan.usage, plan.aircraft, [shown_volume(it) for it in plan.area]])
        self.file.execute("REPLACE INTO mock_plan VALUES (?, ?, ?)", (operator, plan_id, text))
        self.plans[operator][plan_id] = plan

    def remove(self, operator: str, plan_id: str) -> None:
        """Removes a plan."""
        self.file.execute("DELETE FROM mock_plan WHERE operator = ? AND id = ?", (operator, plan_id))
        del self.plans[operator][plan_id]

    def close(self) -> None:
        """Closes the file."""
        self.file.close()
