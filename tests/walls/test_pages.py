"""A page of another site that the operator's browser opens: its form would clear the operator's flights."""

# mypy: allow-untyped-calls
# (selenium is annotated in part)

from __future__ import annotations

import contextlib
import http.server
import json
import threading
from collections.abc import Iterator

import pytest
from harness.ports import free_port, is_listening, until
from harness.requests import over
from harness.rows import Rows
from map.browser import Driver, browser
from selenium.common.exceptions import NoSuchElementException, StaleElementReferenceException
from serve.given import BODY, TOMORROW
from walls.given import ALFA, Walls, exchange, mock_desk, program, read, request, walls_of

pytestmark = [pytest.mark.proxy, pytest.mark.browser, pytest.mark.quick]

PLAN = "/flight_plans/11111111-1111-4111-8111-111111111111"
EVERYWHERE = over(["1", "3", "5", "7", "9", "b"], lower=-10_000, upper=200_000)
CLEAR = json.dumps({"extent": EVERYWHERE}).replace("2026-06-01", TOMORROW)
CIRCLE = {"center": {"lng": 8.5, "lat": 47.4}, "radius": {"value": 1000, "units": "M"}}
PUBLISHED = {
    "request_id": "1",
    "extent": {
        "volume": {"outline_circle": CIRCLE},
        "time_start": {"format": "RFC3339", "value": f"{TOMORROW}T00:00:00Z"},
        "time_end": {"format": "RFC3339", "value": f"{TOMORROW}T23:00:00Z"},
    },
}
STORED = {"flight_plan_status": "Planned", "notes": "", "planning_result": "Completed"}


def form(url: str, body: str) -> bytes:
    """A page whose form is sent by itself: its only field is an object of JSON, cut in two at a member that nobody
    asks for."""
    name = body[:-1] + ',"a":"'
    quoted = name.replace("&", "&amp;").replace('"', "&quot;")
    return f"""<!doctype html><title>before</title>
        <form action="{url}" method="post" enctype="text/plain"><input name="{quoted}" value='"}}'></form>
        <script>document.forms[0].submit()</script>""".encode()


@contextlib.contextmanager
def site(page: bytes) -> Iterator[str]:
    """A site of somebody else's with one page; its URL."""

    class Taken(http.server.BaseHTTPRequestHandler):
        """One connection."""

        def do_GET(self) -> None:
            """Answers with the page."""
            self.send_response(200)
            self.send_header("content-type", "text/html")
            self.end_headers()
            self.wfile.write(page)

        def log_message(self, *_: object) -> None:
            """Says nothing."""

    with http.server.ThreadingHTTPServer(("127.0.0.1", 0), Taken) as server:
        threading.Thread(target=server.serve_forever, args=(0.05,), daemon=True).start()
        yield f"http://localhost:{server.server_port}/"
        server.shutdown()


@pytest.fixture(scope="module")
def driver() -> Iterator[Driver]:
    """A browser."""
    with browser() as made:
        yield made


@pytest.fixture(scope="module")
def proxied() -> Iterator[Walls]:
    """The proxy before a mock desk."""
    with mock_desk("alfa=100") as port, walls_of(desk_port=port) as made:
        yield made


def is_stored(walls: Walls) -> bool:
    """Whether alfa's plan is there."""
    return read(exchange(walls.port, request("GET", PLAN, ALFA))).status == 200


def shown(driver: Driver) -> str:
    """What the browser shows once the form is sent."""
    found = list[str]()

    def is_there() -> bool:
        with contextlib.suppress(NoSuchElementException, StaleElementReferenceException):
            found[:] = [driver.find_element("tag name", "body").text] if driver.title != "before" else []
        return any(found)

    until("the form", is_there)
    return found[0]


def test_form_at_the_proxy(rows: Rows, driver: Driver, proxied: Walls) -> None:
    """The browser knows the password, since the operator looked at the desk's state in it."""
    stored = read(exchange(proxied.port, request("PUT", PLAN, ALFA, body=BODY))).value
    rows.equal("alfa's plan", STORED, stored)
    driver.get(f"http://alfa:a@127.0.0.1:{proxied.port}/status")
    rows.has("who types the address", "Ready", driver.page_source)
    url = f"http://127.0.0.1:{proxied.port}/clear_area_requests"
    with site(form(url, CLEAR)) as page:
        driver.get(page)
        rows.equal("the answer to the form", '{"error":"from_a_page"}', shown(driver))
    rows.holds("the plan is there", is_stored(proxied))

    def posts() -> list[str]:
        lines = [line.split("\t") for line in proxied.log("access").splitlines()]
        return [fields[5] for fields in lines if fields[3] == "POST"]

    until("a line in access.log", posts)
    rows.equal("in the log", ["403"], posts())
    sent = request("POST", "/clear_area_requests", ALFA, body=CLEAR.encode())
    cleared = read(exchange(proxied.port, sent)).value
    rows.equal("a client clears", "cleared 1", cleared["outcome"]["message"])


def test_form_at_the_bridge(rows: Rows, driver: Driver) -> None:
    """The bridge knows the password itself."""
    with mock_desk("alfa=100") as desk_port:
        port = free_port()
        words = ["--desk", f"http://127.0.0.1:{desk_port}", "--operator", "alfa", "--port", str(port)]
        with program("interuss_bridge", ["python", "interuss_bridge"], *words) as line:
            address = line.removeprefix("listening ")
            until("the bridge", lambda: is_listening(port))
            at_the_bridge(rows, driver, desk_port, port, address)


def at_the_bridge(rows: Rows, driver: Driver, desk_port: int, port: int, address: str) -> None:
    """What a page, and others, have of the bridge at its address."""
    own = b"x-operator: alfa\r\n"
    there = BODY.replace(b'"479aa0a84"', b'"479"')
    rows.equal("alfa's plan", STORED, read(exchange(desk_port, request("PUT", PLAN, own, body=there))).value)
    path = address.partition(str(port))[2]
    for what, url in (("the form", f"http://127.0.0.1:{port}"), ("one that knows the token", address)):
        with site(form(f"{url}/clear_area_requests", json.dumps(PUBLISHED))) as page:
            driver.get(page)
            rows.has(what, '"from_a_page"', shown(driver))
    kind = b"content-type: application/json\r\n"
    body = json.dumps(PUBLISHED).encode()
    for what, status, word, sent in (
        ("another name", 421, "host", request("POST", f"{path}/clear_area_requests", kind, host="evil", body=body)),
        ("no token", 403, "token", request("POST", "/clear_area_requests", kind, body=body)),
        ("another token", 403, "token", request("POST", "/x/clear_area_requests", kind, body=body)),
        ("no JSON", 415, "content_type", request("POST", f"{path}/clear_area_requests", body=body)),
    ):
        got = read(exchange(port, sent))
        rows.equal(what, (status, word), (got.status, got.value["error"]))
    rows.equal("the plan is there", 200, read(exchange(desk_port, request("GET", PLAN, own))).status)
    got = read(exchange(port, request("POST", f"{path}/clear_area_requests", kind, body=body)))
    rows.equal("a client clears", "cleared 1", got.value["outcome"]["message"])


def test_fields(rows: Rows, proxied: Walls) -> None:
    """A client that isn't a browser says nothing of a page, and passes; a page of the proxy's own site doesn't."""
    for what, field, status in (
        ("nothing", b"", 200),
        ("none", b"sec-fetch-site: none\r\n", 200),
        ("the same site", b"sec-fetch-site: same-origin\r\n", 403),
        ("a null origin", b"origin: null\r\n", 403),
        ("an origin beside none", b"origin: http://evil.example\r\nsec-fetch-site: none\r\n", 403),
    ):
        rows.equal(what, status, read(exchange(proxied.port, request("GET", "/status", ALFA, field))).status)
