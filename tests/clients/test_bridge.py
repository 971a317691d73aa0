"""The messages of interuss/, one after the other, each with its answer, through the bridge for carol. Another
operator's flight is in the way of some; their dates are those of tomorrow and of the day after."""

from __future__ import annotations

import contextlib
import json
import os
import subprocess
import sys
import urllib.error
import urllib.request
from collections.abc import Iterator
from typing import Any, NamedTuple

import pytest
from clients.given import PATIENCE, at, desk_of
from harness.places import CLIENTS, TESTS
from harness.ports import free_port, is_listening, until
from harness.rows import Rows
from harness.setting import Setting
from uss_desk_client import Circle, area_of, new_id

pytestmark = pytest.mark.proxy

DIRECT = urllib.request.build_opener(urllib.request.ProxyHandler({}))
"""What asks this machine itself, whatever http_proxy says."""
TOKEN = "a-token-of-the-test"
MESSAGES = sorted((TESTS / "clients" / "interuss").glob("*.json"))


class Answered(NamedTuple):
    """An answer of the bridge, without what no two answers have alike."""

    status: int
    body: Any
    notes: str


@contextlib.contextmanager
def bridge_of(setting: Setting, name: str) -> Iterator[str]:
    """The bridge for an operator; its URL."""
    port = free_port()
    words = [sys.executable, "-m", "interuss_bridge", "--desk", setting.url, "--user", name, "--port", str(port)]
    words += ["--token", TOKEN]
    quiet = {"PYTHONDONTWRITEBYTECODE": "1", "USS_DESK_PASSWORD": setting.operators[name]}
    paths = os.pathsep.join(str(CLIENTS / part) for part in ("python", "interuss_bridge"))
    with subprocess.Popen(words, stdout=subprocess.DEVNULL, env={**os.environ, **quiet, "PYTHONPATH": paths}) as ran:
        try:
            until("the bridge", lambda: is_listening(port))
            yield f"http://127.0.0.1:{port}/{TOKEN}"
        finally:
            ran.terminate()


@pytest.fixture
def url(setting: Setting) -> Iterator[str]:
    """Where carol's bridge is asked, once another operator's flight is there."""
    spot = area_of(Circle((8.556, 47.379), 300), (80, 150), at(12, 30), at(14))
    assert desk_of(setting, "bravo").plan(new_id(), spot, 30).result == "Completed"
    assert desk_of(setting, "carol").plans() == []
    with bridge_of(setting, "carol") as bridge:
        yield bridge


def ask(url: str, asked: dict[str, Any]) -> Answered:
    """What the bridge answers to a message."""
    body = json.dumps(asked["body"]).encode() if "body" in asked else None
    fields = {"content-type": "application/json"}
    request = urllib.request.Request(url + asked["path"], method=asked["method"], data=body, headers=fields)
    try:
        with DIRECT.open(request, timeout=PATIENCE) as answer:
            status, data = answer.status, answer.read()
    except urllib.error.HTTPError as refused:
        status, data = refused.code, refused.read()
    got = json.loads(data)
    got.pop("message", None)
    got.get("outcome", {}).pop("timestamp", None)
    return Answered(status, got, got.pop("notes", ""))


@pytest.mark.quick
def test_messages(rows: Rows, url: str) -> None:
    """Each message has its answer, and its notes begin, or are, as they should."""
    for path in MESSAGES:
        text = path.read_text(encoding="utf-8").replace("2026-06-01", f"{at(0):%Y-%m-%d}")
        message = json.loads(text.replace("2026-06-02", f"{at(0, day=1):%Y-%m-%d}"))
        wanted, got = message["answer"], ask(url, message["request"])
        rows.equal(path.stem, (wanted["status"], wanted["body"]), (got.status, got.body))
        begin = wanted.get("notes_begin")
        rows.equal(f"{path.stem}: notes", begin or "", got.notes if begin is None else got.notes[: len(begin)])
