"""What the parts ask with: places, moments of tomorrow, and the desk as an operator's client or terminal asks it."""

from __future__ import annotations

import os
import sys
from datetime import datetime, timedelta, timezone

from harness.places import CLIENTS
from harness.setting import Setting
from uss_desk_client import Desk

FIELD = [(8.5400, 47.3700), (8.5560, 47.3690), (8.5600, 47.3790), (8.5480, 47.3830), (8.5390, 47.3780)]
WOOD = [(8.5500, 47.3750), (8.5700, 47.3740), (8.5690, 47.3850), (8.5520, 47.3860)]
FAR = [(8.7000, 47.5000), (8.7100, 47.5000), (8.7100, 47.5060), (8.7000, 47.5060)]
PATIENCE = 200
"""Seconds that an answer may take."""
SOON = datetime.now(timezone.utc) + timedelta(hours=2)
TOMORROW = SOON.replace(hour=0, minute=0, second=0, microsecond=0) + timedelta(days=1)
"""The next day in UTC; in the last two hours of a day the one after it, so that it doesn't begin during the tests."""


def at(hour: int, minute: int = 0, day: int = 0) -> datetime:
    """A moment of tomorrow, or so many days later."""
    return TOMORROW + timedelta(days=day, hours=hour, minutes=minute)


def desk_of(setting: Setting, name: str) -> Desk:
    """The desk through nginx, as an operator."""
    return Desk(setting.url, user=name, password=setting.operators[name], patience=PATIENCE)


def desk_itself(setting: Setting, name: str) -> Desk:
    """The desk at its own port."""
    return Desk(f"http://127.0.0.1:{setting.port}", operator=name, patience=PATIENCE)


def environment(setting: Setting, name: str) -> dict[str, str]:
    """What a terminal has, to ask as an operator of this desk."""
    return {
        **os.environ,
        "PYTHON": sys.executable,
        "PYTHONPATH": str(CLIENTS / "python"),
        "PYTHONDONTWRITEBYTECODE": "1",
        "USS_DESK_URL": setting.url,
        "USS_DESK_USER": name,
        "USS_DESK_PASSWORD": setting.operators[name],
    }
