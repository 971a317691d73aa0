"""docs/errors.md: it has each note and error code of the desk and of the proxy, and its samples are answered so."""

from __future__ import annotations

import json
import re
from typing import Any

import pytest
from harness.places import DEPLOY, DOCS, EXAMPLES
from harness.printed import page, section
from harness.requests import answers

ROW = re.compile(r"(?m)^\| `(\w+)` \|(.*)\|$")
SAMPLE = re.compile(r"\]\(\.\./examples/(\w+)\.http\)(?: (\d+))?")


def rows(heading: str) -> list[tuple[str, str]]:
    """The codes of a table of the page, each with the rest of its row."""
    return ROW.findall(section(page("errors.md"), heading))


def samples() -> list[tuple[str, str, str]]:
    """Each code that has a sample: the example, the number of its answer, none if there is one alone, and the code."""
    found = []
    for heading in ("## Notes of a PUT", "## Error codes of the desk"):
        found += [(name, number, code) for code, rest in rows(heading) for name, number in SAMPLE.findall(rest)]
    return found


def described(value: Any, member: str) -> set[str]:
    """The texts that a description of the interface lists for a member, anywhere in it."""
    if isinstance(value, dict):
        here = value[member].get("enum", []) if isinstance(value.get(member), dict) else []
        return set(here).union(*(described(part, member) for part in value.values()))
    return set().union(*(described(part, member) for part in value)) if isinstance(value, list) else set()


@pytest.mark.quick
def test_codes() -> None:
    """What may be answered is on the page."""
    interface = json.loads((DOCS / "openapi.json").read_text())
    proxies = "".join((DEPLOY / name).read_text() for name in ("nginx.conf", "nginx_refusals.conf", "haproxy.cfg"))
    codes = {code for code, _ in rows("## Error codes of the desk") + rows("## Error codes of the proxy")}
    assert {code for code, _ in rows("## Notes of a PUT")} == described(interface, "notes") - {""}
    assert codes >= described(interface, "error") | set(re.findall(r'"error":"(\w+)"', proxies))


@pytest.mark.quick_each(10)
@pytest.mark.parametrize("name, number, code", samples())
def test_sample(name: str, number: str, code: str) -> None:
    """The answer of a sample has the code, and the status that the table of the desk's codes says."""
    answer = answers((EXAMPLES / f"{name}.answer").read_bytes())[int(number or 1) - 1]
    assert code in (answer.value.get("notes"), answer.value.get("error"))
    status = dict(rows("## Error codes of the desk")).get(code, " 200 ").split("|")[0]
    assert answer.status == int(status)


@pytest.mark.quick
def test_samples() -> None:
    """There are samples."""
    assert len(samples()) > 15
