"""What nginx refuses itself is JSON, and described in docs/openapi.json."""

from __future__ import annotations

import http.client
import json
from collections.abc import Mapping
from concurrent.futures import ThreadPoolExecutor
from typing import Any, NamedTuple

import pytest
from harness.places import DOCS
from harness.rows import Rows, named
from harness.setting import Setting

pytestmark = pytest.mark.proxy

USER = {"authorization": "Basic YWxmYTph"}
"""alfa, with its password."""
REFUSED: list[tuple[str, int, str, str, str, dict[str, str], bytes | None]] = [
    ("no password", 401, "unauthorized", "GET", "/status", {}, None),
    ("too large a field", 413, "too_large", "GET", "/status", {**USER, "x": "x" * 20_000}, None),
    ("too large a body", 413, "too_large", "PUT", "/flight_plans/x", USER, b" " * 131_073),
    ("too long a path", 414, "too_large", "GET", "/" + "x" * 5_000, USER, None),
    ("an encoding", 501, "transfer_encoding", "GET", "/status", {**USER, "transfer-encoding": "gzip"}, None),
]
"""What is refused: the status and the word of the answer, and the method, path, fields and body."""


class Answered(NamedTuple):
    """An answer of nginx."""

    status: int
    value: Any
    type: str | None
    after: str | None


def ask(setting: Setting, method: str, path: str, fields: Mapping[str, str], body: bytes | None = None) -> Answered:
    """What nginx answers."""
    connection = http.client.HTTPConnection("127.0.0.1", setting.nginx.port, timeout=300)
    try:
        connection.request(method, path, body=body, headers=dict(fields))
        answer = connection.getresponse()
        value = json.loads(answer.read())
        return Answered(answer.status, value, answer.getheader("content-type"), answer.getheader("retry-after"))
    finally:
        connection.close()


def described(status: int) -> list[str]:
    """The words that docs/openapi.json has for a status of a PUT."""
    document = json.loads((DOCS / "openapi.json").read_text(encoding="utf-8"))
    response = document["paths"]["/flight_plans/{flight_plan_id}"]["put"]["responses"][str(status)]
    response = document["components"]["responses"][response["$ref"].split("/")[-1]]
    words: list[str] = response["content"]["application/json"]["schema"]["properties"]["error"]["enum"]
    return words


@pytest.mark.quick
@pytest.mark.parametrize("status, word, method, path, fields, body", named(REFUSED))
def test_refused(
    status: int,
    word: str,
    method: str,
    path: str,
    fields: dict[str, str],
    body: bytes | None,
    rows: Rows,
    setting: Setting,
) -> None:
    """A request that nginx refuses."""
    answer = ask(setting, method, path, fields, body)
    rows.equal("the answer", (status, {"error": word}, "application/json"), answer[:3])
    rows.holds("openapi.json has it", word in described(status))


@pytest.mark.quick
def test_another_method(setting: Setting) -> None:
    """A method that the desk hasn't."""
    assert ask(setting, "TRACE", "/status", USER)[:2] == (405, {"error": "method"})


@pytest.mark.quick
def test_no_page_of_its_own(setting: Setting) -> None:
    """The pages of refusals can't be asked for."""
    assert ask(setting, "GET", "/refused/502", USER)[:2] == (404, {"error": "no_route"})


AT_ONCE = 8


def refused_of(setting: Setting, most: int, enough: int) -> set[tuple[int, str, str | None]]:
    """What is refused of so many requests of one operator, some at once, up to the number that is enough."""
    found: list[Answered] = []
    with ThreadPoolExecutor(AT_ONCE) as pool:
        for _ in range(0, most, AT_ONCE):
            answers = pool.map(lambda _: ask(setting, "GET", "/status", USER), range(AT_ONCE))
            found += [answer for answer in answers if answer.status != 200]
            if len(found) >= enough:
                break
    return {(answer.status, answer.value["error"], answer.after) for answer in found}


def test_too_many_requests(setting: Setting) -> None:
    """An operator that asks more often than it may hears of it, and when to ask again. On a busy machine it takes more
    requests until they are too many."""
    assert refused_of(setting, most=20_000, enough=100) == {(429, "too_many_requests", "5")}


@pytest.mark.quick
@pytest.mark.parametrize("status, word", [(429, "too_many_requests"), (502, "bad_gateway"), (504, "gateway_timeout")])
def test_described(status: int, word: str) -> None:
    """openapi.json has it."""
    assert word in described(status)
