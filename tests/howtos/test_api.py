"""docs/api.md: its samples are requests and answers of examples/, its command plays one, and it names each code."""

from __future__ import annotations

import json
import os
import re
import subprocess
from collections.abc import Iterator
from typing import Any

import pytest
from harness.places import DEPLOY, DOCS, EXAMPLES, TOP
from harness.printed import blocks, page, section
from harness.program import run
from harness.requests import MOMENT, answers, plan_id, with_body

PAGE = page("api.md")
FILE = re.compile(r"\]\(\.\./examples/(\w+\.(?:http|answer))\) (\d+)")
SAMPLE = re.compile(r"(?ms)^```(json|http)\n(.*?)^```$")
PROXIES = ("nginx.conf", "nginx_refusals.conf", "haproxy.cfg")


def messages(name: str) -> list[bytes]:
    """The requests or the answers of a file, each whole."""
    data, found = (EXAMPLES / name).read_bytes(), []
    while data.strip():
        head, _, rest = data.partition(b"\r\n\r\n")
        length = re.search(rb"(?i)content-length: (\d+)", head)
        end = len(head) + 4 + (int(length[1]) if length else 0)
        found.append(data[:end])
        data = data[end:]
    return found


def body(message: bytes) -> str:
    """The body of a message."""
    return message.partition(b"\r\n\r\n")[2].decode()


def samples() -> Iterator[tuple[str, str, str]]:
    """Each sample, after the text that names its file: its kind, what is shown, and that text."""
    end = 0
    for found in SAMPLE.finditer(PAGE):
        yield found[1], found[2], PAGE[end : found.start()]
        end = found.end()


@pytest.mark.quick
def test_samples() -> None:
    """Each sample is the request or the answer that the text before it names, byte for byte but for blanks."""
    named: list[tuple[str, str]] = []
    for kind, shown, text in samples():
        named += FILE.findall(text)
        name, number = named.pop(0)
        played = messages(name)[int(number) - 1]
        if kind == "json":
            assert json.dumps(json.loads(shown), separators=(",", ":"), ensure_ascii=False) == body(played), name
        else:
            assert shown.replace("\n", "\r\n").strip() == played.decode().strip(), name
    assert named == []


@pytest.mark.quick
def test_kinds() -> None:
    """There is a sample of each kind of request."""
    names = {name for name, _ in FILE.findall(PAGE)}
    answers = {f"{name}.answer" for name in "first_put blocked_put bad_token show list delete clear status".split()}
    assert names >= answers | {"first_put.http", "clear.http"}


@pytest.mark.quick
def test_command() -> None:
    """The page's command prints the answers of the example that it plays."""
    (command,) = blocks(section(PAGE, "## Samples"), "sh")
    quiet = {**os.environ, "PYTHONDONTWRITEBYTECODE": "1"}
    ran = subprocess.run(["bash", "-c", command], cwd=TOP, env=quiet, capture_output=True, check=False)
    assert (ran.stdout, ran.returncode) == ((EXAMPLES / "first_put.answer").read_bytes(), 0)


def without_a_member(value: Any) -> Iterator[Any]:
    """The value without one of its members, for each of them, at every depth."""
    if isinstance(value, dict):
        for name, inner in value.items():
            yield {other: kept for other, kept in value.items() if other != name}
            yield from ({**value, name: less} for less in without_a_member(inner))
    elif isinstance(value, list):
        yield from ([less] for inner in value for less in without_a_member(inner))


@pytest.mark.quick
def test_smallest() -> None:
    """The smallest body is taken, and without any of its members it is refused."""
    (block,) = blocks(section(PAGE, "### The smallest PUT"), "bash")
    body_text = block.partition("<<END\n")[2].partition("END\n")[0].replace("${day}", "2026-06-01")
    bodies = [json.loads(body_text), *without_a_member(json.loads(body_text))]
    given = b"".join(with_body("PUT", f"/flight_plans/{plan_id(1)}", "alfa", it) for it in bodies)
    first, *others = answers(run("play", "--at", str(MOMENT), "alfa=100", given=given).output)
    assert (first.status, first.value["planning_result"]) == (200, "Completed")
    assert {it.status for it in others} == {400} and len(others) == len(bodies) - 1


def described(value: object) -> set[str]:
    """The error codes that a description of the interface lists, anywhere in it."""
    if isinstance(value, dict):
        here = value["error"].get("enum", []) if isinstance(value.get("error"), dict) else []
        return set(here).union(*(described(part) for part in value.values()))
    return set().union(*(described(part) for part in value)) if isinstance(value, list) else set()


@pytest.mark.quick
def test_codes() -> None:
    """The page and openapi.json name each code of the proxies; the page has each code and note of openapi.json too."""
    interface = json.loads((DOCS / "openapi.json").read_text())
    proxies = {code for name in PROXIES for code in re.findall(r'"error":"(\w+)"', (DEPLOY / name).read_text())}
    notes = set(interface["components"]["schemas"]["PlanAnswer"]["properties"]["notes"]["enum"]) - {""}
    on_page = set(re.findall(r"`(\w+)`", PAGE))
    assert proxies - described(interface) == set()
    assert (proxies | described(interface) | notes) - on_page == set()


SEARCHED = (
    "409",
    "timed out",
    "timeout",
    "load balancer",
    "latency",
    "timing",
    "retry",
    "maximum priority",
    "sample",
)


@pytest.mark.quick
@pytest.mark.parametrize("word", [*SEARCHED, "idempotent", "dry run", "rates"])
def test_searched(word: str) -> None:
    """What readers search for is on the page."""
    assert word in PAGE.lower()
