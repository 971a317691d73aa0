"""Who reaches the page and who doesn't, what it holds, what it asks for, and how the browser gets there."""

import http.client
import os
import re
from collections.abc import Iterator, Mapping

import pytest
from harness.places import CLIENTS
from harness.ports import until
from harness.rows import Rows, named
from harness.setting import Setting
from map.browser import Driver, Page, Program, Programs, Tiles
from map.given import MAP_PATIENCE, OPERATORS

pytestmark = [pytest.mark.alone, pytest.mark.browser, pytest.mark.proxy]

STATIC = CLIENTS / "map" / "uss_desk_map" / "static"
POLICY = "default-src 'none'; script-src 'self'; style-src 'self'; img-src 'self' data:; connect-src 'self'"
ASKED = {"origin": "http://127.0.0.1:{port}", "content-type": "application/json"}
"""The fields that the page sends; {port} is that of its program, and {token} in a path its secret."""
# who, the method, the path, and the fields
STRANGERS: list[tuple[str, str, str, dict[str, str]]] = [
    ("no token", "GET", "/", {}),
    ("another token", "GET", "/{other}/", {}),
    ("no token, for a call", "POST", "/api/plans", ASKED),
    ("another host", "GET", "/{token}/", {"host": "desk.example"}),
    ("another name of this machine", "GET", "/{token}/", {"host": "localhost:{port}"}),
    ("another origin", "POST", "/{token}/api/plans", {**ASKED, "origin": "http://desk.example"}),
    ("another port's origin", "POST", "/{token}/api/plans", {**ASKED, "origin": "http://127.0.0.1:1"}),
    ("no origin", "POST", "/{token}/api/plans", {"content-type": "application/json"}),
    ("the page of another site", "POST", "/{token}/api/plans", {**ASKED, "sec-fetch-site": "cross-site"}),
]
Told = tuple[int, dict[str, str], str]


@pytest.fixture
def program(programs: Programs) -> Program:
    """The map's program of alfa."""
    return programs["alfa"]


def told(
    program: Program, method: str, path: str, fields: Mapping[str, str] | None = None, body: bytes = b""
) -> Told:
    """The status, the fields and the text of an answer of the map's program."""
    given = {"port": program.port, "token": program.token, "other": "x" * len(program.token)}
    asked = {name: value.format(**given) for name, value in (fields or {}).items()}
    connection = http.client.HTTPConnection("127.0.0.1", program.port, timeout=300)
    try:
        connection.putrequest(method, path.format(**given), skip_host="host" in asked)
        for name, value in {**asked, "content-length": str(len(body))}.items():
            connection.putheader(name, value)
        connection.endheaders(body)
        answer = connection.getresponse()
        text = answer.read().decode("utf-8", "replace")
        return answer.status, {name.lower(): value for name, value in answer.getheaders()}, text
    finally:
        connection.close()


@pytest.mark.quick
@pytest.mark.parametrize("method, path, fields", named(STRANGERS))
def test_stranger(program: Program, method: str, path: str, fields: dict[str, str]) -> None:
    """Whoever isn't the page is refused."""
    assert told(program, method, path, fields)[0] == 403


@pytest.mark.quick
def test_page(program: Program) -> None:
    """The page is kept nowhere, and framed by none."""
    status, fields, _ = told(program, "GET", "/{token}/")
    assert (status, fields["cache-control"], fields["x-frame-options"]) == (200, "no-store", "DENY")


@pytest.mark.quick
def test_policy(program: Program) -> None:
    """The page runs what is its own alone."""
    policy = told(program, "GET", "/{token}/")[1]["content-security-policy"]
    assert policy.startswith(POLICY)
    assert "unsafe" not in policy


def test_call(program: Program) -> None:
    """The page's own calls are answered."""
    assert told(program, "POST", "/{token}/api/plans", ASKED, b"{}")[0] == 200


def test_no_password_in_any_file(rows: Rows, program: Program) -> None:
    """Neither the page nor a file of it nor what it is told has the password."""
    page = told(program, "GET", "/{token}/")[2]
    names = ["", "api/setting", *re.findall(r'(?:src|href)="([^"#]+)"', page)]
    names += [f"static/{name}" for name in os.listdir(STATIC) if name != "index.html"]
    answers = {name: told(program, "GET", f"/{{token}}/{name}") for name in names}
    rows.equal("files that aren't there", [], [name for name, answer in answers.items() if answer[0] != 200])
    with_password = [name for name, answer in answers.items() if OPERATORS[program.name] in answer[2]]
    rows.equal("files with the password", [], with_password)
    rows.equal("inline scripts and styles", [], re.findall(r"<script[^>]*>[^<]|<style| on\w+=| style=", page))


def test_nothing_from_elsewhere(rows: Rows, program: Program, driver: Driver) -> None:
    """The page asks its own program alone, runs nothing that is put into it, and keeps no password."""
    page, own = Page(driver, program.address), f"http://127.0.0.1:{program.port}"
    names = page.js("return performance.getEntriesByType('resource').map((one) => one.name)")
    rows.holds("the page asked for its files", len(names) > 15)
    rows.equal("what it asked elsewhere", [], [name for name in names if not name.startswith(own)])
    seen = page.js("return document.documentElement.outerHTML + JSON.stringify(localStorage)")
    rows.holds("no password in the page", OPERATORS["alfa"] not in seen and "alfa" in seen)
    rows.equal("complaints", [], page.errors())
    page.js(
        """document.body.insertAdjacentHTML('beforeend',
            '<img src="http://127.0.0.1:1/x.png"><img src=x onerror="window.wasRun = 1">')"""
    )
    refused, put_in = list[str](), ["inline event handler", "127.0.0.1:1/x.png"]

    def are_told() -> bool:
        refused.extend(one for one in page.errors() if "Content Security Policy" in one)
        return all(any(it in one for one in refused) for it in put_in)

    page.until("what the policy has refused", are_told)
    rows.equal("inline scripts run", None, page.js("return window.wasRun"))


@pytest.fixture
def tiles() -> Iterator[Tiles]:
    """A server of tiles."""
    made = Tiles()
    yield made
    made.end()


def test_own_tiles(rows: Rows, setting: Setting, driver: Driver, tiles: Tiles) -> None:
    """A keeper's tiles are fetched from where they are, and aren't told of the page."""
    words = ["--tiles", f"{tiles.url}/{{z}}/{{x}}/{{y}}.png", "--attribution", "<b>Ours</b>"]
    program = Program(setting, "bravo", MAP_PATIENCE, *words)
    try:
        page = Page(driver, program.address)
        page.until("tiles on the map", lambda: page.all("img.leaflet-tile-loaded"))
        rows.equal("the tiles' attribution is text", "<b>Ours</b>", page.text(".leaflet-control-attribution"))
        rows.equal("complaints with tiles", [], page.errors())
        rows.holds("tiles were asked for", tiles.asked and all(path.endswith(".png") for path, _ in tiles.asked))
        rows.equal("what tiles are told of the page", [], [one for one in tiles.asked if program.token in str(one)])
    finally:
        program.end()


def test_way_in(rows: Rows, setting: Setting, driver: Driver) -> None:
    """The browser that the program opens is handed a file, which leads to the page; the file goes with the program."""
    noted, script = setting.folder / "opened", setting.folder / "note_what_is_opened"
    script.write_text(f'#!/bin/sh\nprintf %s "$1" > {noted}.new && mv {noted}.new {noted}\n', encoding="utf-8")
    script.chmod(0o755)
    program = Program(setting, "carol", MAP_PATIENCE, opens=script)
    until("the browser", noted.exists)
    opened = noted.read_text(encoding="utf-8")
    rows.equal("what is opened", (True, False), (opened.startswith("file:///"), program.token in opened))
    page = Page(driver, opened)
    rows.equal("where it leads", program.address, page.js("return location.href"))
    program.end()
    rows.holds("the file has gone", not os.path.exists(opened[len("file://") :]))
