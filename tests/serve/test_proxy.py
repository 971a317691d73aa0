"""The desk through nginx and HAProxy with nginx.conf and haproxy.cfg: strangers beside good requests, Lists beside
another request, TLS, what nginx itself refuses, and its log, which has all of that."""

from __future__ import annotations

import contextlib
import random
import re
import subprocess
import time
from collections.abc import Iterator
from concurrent.futures import ThreadPoolExecutor

import pytest
from harness.ports import until
from harness.printed import page
from harness.requests import over, plan_id, put
from harness.rows import Rows
from serve.desks import connected, serving
from serve.given import (
    ABOVE,
    BLOCKED,
    BODY,
    PLAN,
    PUT,
    READY,
    STORED,
    TOO_LARGE,
    asked,
    counted,
    curl,
    operator,
    refused,
    statuses,
)
from serve.load import dated
from serve.proxy import Proxy

pytestmark = [pytest.mark.alone, pytest.mark.proved, pytest.mark.proxy]

ALFA, BRAVO = ("-u", "alfa:a"), ("-u", "bravo:b")
NAME = "desk.example"
"""The name in the certificate."""
UNKNOWN = 60
"""curl's status for a certificate that it doesn't know."""
HALF = b"GET /status HTTP/1.1\r\nx-op"
LARGE_PLANS = 20
SILENT = 3
"""Clients that say nothing. The desk waits ten seconds for each, and HAProxy nine for the desk."""
ALFAS = 213
"""Requests of alfa's that the log tells at the end."""
MONITORING = page("monitoring.md")


def test_proxy(rows: Rows, proxy: Proxy) -> None:
    """All that the log tells at the end, one after the other."""
    through_the_proxy(rows, proxy)
    over_tls(rows, proxy)
    beside_strangers(rows, proxy)
    beside_lists(rows, proxy)
    refusals(rows, proxy)
    log(rows, proxy)


def through_the_proxy(rows: Rows, proxy: Proxy) -> None:
    """What a client sends reaches the desk, its x-operator doesn't."""
    url = proxy.url
    with serving(rows, 6, at=proxy.desk_port):
        told = asked(*ALFA, *operator("bravo"), *PUT, f"{url}{PLAN}", given=BODY)
        rows.equal("put by the proxy", STORED, told)
        rows.equal("blocked by the proxy", BLOCKED, asked(*BRAVO, *PUT, f"{url}{PLAN}", given=ABOVE))
        listed = asked(*BRAVO, *operator("alfa"), f"{url}/flight_plans")
        rows.equal("no plan of bravo", '{"flight_plans":[]} 200', listed)
        chunked = asked(*ALFA, "-H", "transfer-encoding: chunked", *PUT, f"{url}{PLAN}", given=BODY)
        rows.equal("a chunked body by the proxy", STORED, chunked)
        rows.equal("ready by the proxy", READY, asked(*ALFA, f"{url}/status"))
        words = ["--head", *BRAVO, "--output", "/dev/null", "--write-out", "%{http_code} %{size_download}"]
        rows.equal("a HEAD by the proxy has no body", (0, "405 0"), curl(*words, f"{url}/status"))


def over_tls(rows: Rows, proxy: Proxy) -> None:
    """Over TLS the same is answered, to whoever knows the certificate."""
    words = ["--resolve", f"{NAME}:{proxy.tls_port}:127.0.0.1", *BRAVO, f"https://{NAME}:{proxy.tls_port}/status"]
    with serving(rows, 1, at=proxy.desk_port):
        rows.equal("ready over TLS", READY, asked("--cacert", str(proxy.folder / "desk.pem"), *words))
    rows.equal("a certificate that the client doesn't know", UNKNOWN, curl(*words)[0])


def beside_strangers(rows: Rows, proxy: Proxy) -> None:
    """300 clients that send half a head, and 60 wrong passwords of alfa's at once, while alfa asks 200 times; then more
    requests without a name than an address may have, and alfa again."""
    url = f"{proxy.url}/status"
    with serving(rows, 201, at=proxy.desk_port), ThreadPoolExecutor(1) as pool:
        with contextlib.ExitStack() as strangers:
            for _ in range(300):
                strangers.enter_context(connected(proxy.port, HALF))
            wrong = pool.submit(statuses, "--parallel", "--parallel-max", "60", "-u", "alfa:b", f"{url}?[1-60]")
            told = statuses(*ALFA, f"{url}?[1-200]")
            rows.equal("200 requests beside 300 slow strangers and 60 wrong passwords", "200 200", told)
            rows.equal("60 wrong passwords", "60 401", wrong.result())
        told = statuses("--parallel", "--parallel-max", "100", f"{url}?[1-100]")
        rows.holds(f"100 requests without a name: {told}", re.fullmatch(r"\d+ 401, \d+ 429|\d+ 429, \d+ 401", told))
        rows.equal("beside them", READY, asked(*ALFA, url))


def large_plans() -> Iterator[tuple[str, bytes]]:
    """Plans of eight volumes of 64 random leaf cells each: the path and the body of a PUT."""
    chance = random.Random(1)
    for number in range(1, LARGE_PLANS + 1):
        tokens = [f"{chance.randrange(10)}{chance.randrange(2**56):014x}1" for _ in range(8 * 64)]
        area = [over(tokens[at : at + 64]) for at in range(0, len(tokens), 64)]
        yield dated(put("alfa", plan_id(number), area, priority=None))


def beside_lists(rows: Rows, proxy: Proxy) -> None:
    """Seven Lists of one operator at once, of large plans, and another operator that asks meanwhile."""
    own = f"http://127.0.0.1:{proxy.desk_port}"
    words = [*ALFA, f"{proxy.url}/flight_plans"]
    with serving(rows, LARGE_PLANS + 4, at=proxy.desk_port), ThreadPoolExecutor(7) as pool:
        for path, body in large_plans():
            rows.equal(f"large plan {path}", STORED, asked(*operator("alfa"), *PUT, f"{own}{path}", given=body))
        # within five seconds: after them one List more would be let through
        lists = [pool.submit(refused, *words) for _ in range(7)]
        time.sleep(0.2)
        rows.equal("beside seven Lists", READY, asked(*BRAVO, f"{proxy.url}/status"))
        answers = [future.result() for future in lists]
        wanted = '{"error":"too_many_requests"} 429 application/json 5'
        rows.equal("Lists at once that are refused", 5, answers.count(wanted))
        alone = refused(*operator("alfa"), f"{own}/flight_plans")
        rows.equal("Lists by the proxy that are the desk's, byte for byte", 2, answers.count(alone))


def refusals(rows: Rows, proxy: Proxy) -> None:
    """What nginx refuses itself."""
    url, long = proxy.url, "a" * 5000
    large = '{"error":"too_large"}'
    wrong = refused("-u", "alfa:b", *operator("alfa"), f"{url}/status")
    rows.equal("a wrong password", '{"error":"unauthorized"} 401 application/json', wrong)
    told = refused(*ALFA, "-H", "Expect:", "--data-binary", "@-", f"{url}/status", given=TOO_LARGE)
    rows.equal("too large for the proxy", f"{large} 413 application/json", told)
    rows.equal("too long a path", f"{large} 414 application/json", refused(*ALFA, f"{url}/{long}"))
    told = refused(*ALFA, "-H", f"a: {long}", f"{url}/status")
    rows.equal("too long a field", f"{large} 413 application/json", told)
    rows.equal("no desk", '{"error":"bad_gateway"} 502 application/json 2', refused(*ALFA, f"{url}/status"))
    with serving(rows, 1 + SILENT, at=proxy.desk_port), contextlib.ExitStack() as silent:
        for _ in range(SILENT):
            silent.enter_context(connected(proxy.desk_port))
        wanted = '{"error":"gateway_timeout"} 504 application/json 10'
        rows.equal("a desk that waits for others", wanted, refused(*ALFA, f"{url}/status"))


def as_printed(proxy: Proxy, beginning: str) -> list[str]:
    """What the command of docs/monitoring.md that begins so prints of nginx's log."""
    line = re.search(rf"(?m)^({re.escape(beginning)}.*)$", MONITORING)
    assert line, beginning
    ran = subprocess.run(["bash", "-c", line[1]], cwd=proxy.folder, stdout=subprocess.PIPE, text=True, check=False)
    return ran.stdout.splitlines()


def fields_of(line: str) -> list[str]:
    """The fields of a line of the log."""
    return line.split("\t")


def log(rows: Rows, proxy: Proxy) -> None:
    """Eleven fields in each line, an operator only where the password was right, what the desk decided."""
    path = proxy.folder / "access.log"

    def of_alfa() -> list[list[str]]:
        return [fields for fields in map(fields_of, path.read_text().splitlines()) if fields[2] == "alfa"]

    # nginx writes a line when it has done with a request, which is a moment after its answer
    until("the lines of all of alfa's requests", lambda: len(of_alfa()) >= ALFAS)
    lines = [fields_of(line) for line in path.read_text().splitlines()]
    rows.equal("who may read it", 0o640, path.stat().st_mode & 0o777)
    rows.equal("fields of a line", {11}, {len(fields) for fields in lines})
    first = next(fields for fields in lines if fields[3] == "PUT")
    rows.equal("a line", ["127.0.0.1", "alfa", "PUT", PLAN, "200", "Completed", "-"], [*first[1:6], *first[8:10]])
    blocked = [[fields[5], *fields[8:10]] for fields in lines if fields[2:4] == ["bravo", "PUT"]]
    rows.equal("a plan that was refused", [["200", "Rejected", "conflict"]], blocked)
    rows.equal("no desk", [["-", "bad_gateway"]], [fields[8:10] for fields in lines if fields[5] == "502"])
    rows.equal("operators", {"-", "alfa", "bravo"}, {fields[2] for fields in lines})
    rows.equal("wrong passwords have no operator", {"-"}, {fields[2] for fields in lines if fields[5] == "401"})
    counts = [line.split() for line in as_printed(proxy, "cut -f 3") if "alfa" in line]
    rows.equal("the page's count", ["204", "alfa", "200", "-", "-"], counts[0])
    slowest = max(float(fields[6]) for fields in lines)
    rows.equal("the page's slowest request", slowest, float(fields_of(as_printed(proxy, "sort -t")[0])[6]))
    # strangers that are slow may take longer
    rows.equal("alfa's slowest request", "504", max(of_alfa(), key=lambda fields: float(fields[6]))[5])
    told_alfa = counted(fields[5] for fields in of_alfa())
    rows.equal("alfa's requests", "206 200, 5 429, 1 502, 1 504", told_alfa)
