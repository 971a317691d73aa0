"""The queue between operators, under real loads, through nginx.conf and haproxy.cfg."""

from __future__ import annotations

import os
import pathlib
import signal
import socket
import time
from collections.abc import Callable, Iterator, Sequence
from concurrent.futures import ThreadPoolExecutor
from typing import NamedTuple

import pytest
from harness.ports import until
from harness.rows import Rows
from harness.serving import Served
from serve.bare import Bare
from serve.given import PLAN
from serve.load import LARGEST, PASSWORDS, Answer, Flood, ask, ask_and_hang_up, ask_until_let_through, now_and_then
from serve.proxy import Proxy

pytestmark = [pytest.mark.alone, pytest.mark.proved, pytest.mark.proxy, pytest.mark.slow]

CONNECTIONS = 64
AT_ONCE = 16
"""What nginx.conf lets an operator have under way at once."""
FEW = 8
"""Clients of one operator that are refused by chance alone."""
DONE = 20
"""How many of alfa's PUTs are carried out while it floods, at least."""
LONGEST = 2.0
"""Seconds that bravo may wait. Where that is more: as long as two of alfa's largest PUTs take alone, or four of them
beside the flood. (Of alfa itself sixteen wait.)"""
RETRIED = 4.0
"""Seconds within which a desk is started again, so that the queue, which tries for five, has lost no request."""
COMPLETED = b'"planning_result":"Completed"'
WORD = b'{"error":"bad_gateway"}'


def statuses(answers: Sequence[Answer]) -> str:
    """The statuses of answers, each once."""
    return " ".join(sorted({str(answer.status) for answer in answers}))


def waits(answers: Sequence[Answer]) -> list[float]:
    """The seconds that each answer took."""
    return [answer.ended - answer.begun for answer in answers]


def within(longest: float, seconds: float) -> str:
    """Whether some seconds are no more than may be, in words that say them if they are."""
    return "not too long" if seconds <= longest else f"{seconds:.2f} s, and {longest:.2f} s are allowed"


def meanwhile(answer: Answer, flood: Sequence[Answer]) -> int:
    """How many of alfa's requests were carried out while another was answered."""
    return sum(one.status == 200 and answer.begun < one.ended < answer.ended for one in flood)


def is_told(answer: Answer) -> bool:
    """Whether an answer of alfa's was a plan that is stored, or a refusal that says when to ask again."""
    if answer.status == 200:
        return COMPLETED in answer.body
    return (answer.status, answer.after) in ((429, "5"), (502, "2"))


class Told(NamedTuple):
    """What bravo and alfa were answered: how long alfa's largest PUT takes alone, and bravo's answers beside the flood,
    beside a restart of the desk, which took so many seconds, and beside a reload of the queue."""

    alone: float
    calm: list[Answer]
    restart: float
    restarted: list[Answer]
    reloaded: list[Answer]
    flood: list[Answer]

    @property
    def each(self) -> float:
        """How long one of alfa's PUTs takes beside the flood, by how many were carried out while bravo asked."""
        begun, ended = self.calm[0].begun, self.calm[-1].ended
        return (ended - begun) / max(1, sum(one.status == 200 and begun < one.ended < ended for one in self.flood))


def with_status(answers: Sequence[Answer], status: int) -> list[Answer]:
    """The answers that have a status, of those that have come until now."""
    return [answer for answer in list(answers) if answer.status == status]


def under_flood(proxy: Proxy, desk: Served) -> Told:
    """alfa floods with its largest plan, in bravo's name."""
    port = proxy.port
    alone = max(waits([ask(port, "alfa", "PUT", *LARGEST) for _ in range(2)]))
    with Flood(port, CONNECTIONS) as flood, ThreadPoolExecutor(1) as pool:
        until("a flood that is refused in part", lambda: with_status(flood.answers, 429))
        calm = now_and_then(port, 6)
        restarting = pool.submit(seconds_of, desk.restart)
        restarted = now_and_then(port, 3)
        restart = restarting.result()
        restarted += now_and_then(port, 0)
        os.kill(proxy.queue_id, signal.SIGUSR2)
        reloaded = now_and_then(port, 2)
        until(f"{DONE} of alfa's PUTs", lambda: len(with_status(flood.answers, 200)) >= DONE, 300)
    return Told(alone, calm, restart, restarted, reloaded, flood.answers)


def seconds_of(act: Callable[[], object]) -> float:
    """How long something takes."""
    begun = time.monotonic()
    act()
    return time.monotonic() - begun


def test_flood(rows: Rows, patient_proxy: Proxy, room: pathlib.Path) -> None:
    """bravo is served beside alfa's flood, and alfa is told when to ask again."""
    operators = [f"{name}=100" for name in PASSWORDS]
    with Served("--db", str(room / "queue.db"), *operators, at=patient_proxy.desk_port) as desk:
        told = under_flood(patient_proxy, desk)
        bravos(rows, told)
        alfas(rows, told)
        plans = [ask(patient_proxy.port, name, "GET", LARGEST[0], b"").status for name in PASSWORDS]
        rows.equal("in whose name alfa asked", [200, 404], plans)
        for row in at_the_queue(patient_proxy):
            rows.equal(*row)


def bravos(rows: Rows, told: Told) -> None:
    """What bravo was answered, and how long it waited."""
    longest = max(LONGEST, 2 * told.alone, 4 * told.each)
    rows.equal("bravo beside a flood", "200", statuses(told.calm))
    rows.equal("bravo's longest wait", "not too long", within(longest, max(waits(told.calm))))
    served = max(meanwhile(answer, told.flood) for answer in told.calm)
    rows.holds(f"alfa's PUTs that bravo waited for: {served}, at most 2", served <= 2)
    # The one that it served, and one that it took in the moment of its end.
    owed = sum(answer.status == 502 for answer in [*told.restarted, *told.flood])
    what = f"what a killed desk owes: {owed}, at most 2, unless its start takes long: {told.restart:.1f} s"
    rows.holds(what, owed <= 2 or told.restart > RETRIED)
    rows.equal("bravo beside a restart", "200", statuses([it for it in told.restarted if it.status != 502]))
    # The queue that is left serves what it has beside the new one: two connections to the desk.
    rows.equal("bravo beside a reload of the queue", "200", statuses(told.reloaded))
    rows.equal("its longest wait then", "not too long", within(2 * longest, max(waits(told.reloaded))))


def alfas(rows: Rows, told: Told) -> None:
    """What alfa was answered."""
    rows.equal("answers without a word when to ask again", [], [it for it in told.flood if not is_told(it)])
    done = with_status(told.flood, 200)
    rows.holds("alfa's own wait in the queue is for five others and more", max(waits(done)) > 5 * told.each)
    refused = statuses([answer for answer in told.flood if answer.status != 502])
    rows.equal("beyond its connections alfa is refused", "200 429", refused)


def at_the_queue(proxy: Proxy) -> Iterator[tuple[str, str, str]]:
    """What comes to the queue itself: half a body, and two operators in one request."""
    with socket.create_connection(("127.0.0.1", proxy.queue_port)) as slow:
        head = f"PUT {PLAN} HTTP/1.1\r\nhost: localhost\r\nx-operator: alfa\r\ncontent-length: 20000\r\n\r\n"
        slow.sendall(f"{head}{{".encode())
        time.sleep(0.2)
        answer = ask(proxy.port, "bravo", "GET", "/status", b"")
        # a desk that was sent it would be left by it after ten seconds, and bravo would wait for that
        yield "beside half a body", "200", str(answer.status)
        yield "half a body, meanwhile", "waits", "waits" if is_silent(slow) else "has ended"
    with socket.create_connection(("127.0.0.1", proxy.queue_port)) as client:
        client.sendall(b"GET /status HTTP/1.1\r\nhost: localhost\r\nx-operator: alfa\r\nx-operator: bravo\r\n\r\n")
        told = b"".join(iter(lambda: client.recv(4096), b"")).decode()
    yield "two operators at the queue", "400 bad_operator", " ".join((told.split()[1], told.split('"')[-2]))


def is_silent(link: socket.socket) -> bool:
    """Whether a connection has been told nothing yet, not even its end."""
    link.setblocking(False)
    try:
        link.recv(1)
    except BlockingIOError:
        return True
    return False


def test_desk_that_hangs_up(rows: Rows, proxy: Proxy) -> None:
    """A desk that reads each request and hangs up: no request comes to it twice."""
    paths = [f"/flight_plans/{number}" for number in range(40)]
    with Bare(proxy.desk_port, 0, False) as bare, ThreadPoolExecutor(FEW) as pool:
        answers = list(
            pool.map(lambda path: ask_until_let_through(proxy.port, "alfa", "PUT", path, LARGEST[1]), paths)
        )
    rows.equal("requests that it gets", sorted(paths), sorted(bare.paths))
    rows.equal("what is told then", {(502, "2", WORD)}, {(it.status, it.after, it.body) for it in answers})


def test_client_that_hangs_up(rows: Rows, patient_proxy: Proxy) -> None:
    """alfa asks and hangs up: what it asked is under way, and counts. bravo is served before it."""
    port = patient_proxy.port
    with Bare(patient_proxy.desk_port, 0.2, True) as bare, ThreadPoolExecutor(1) as pool:
        with bare.held():
            for _ in range(AT_ONCE + 4):
                ask_and_hang_up(port, "alfa", "PUT", *LARGEST)
            # those that come before the last of these are counted wait too, and are hung up on
            more = [ask(port, "alfa", "GET", "/status", b"", hang_up=2)]
            while more[-1].status != 429 and len(more) < 2 * AT_ONCE:
                more.append(ask(port, "alfa", "GET", "/status", b"", hang_up=2))
            rows.has("alfa after requests that it hung up on", "429", statuses(more))
            beside = pool.submit(ask, port, "bravo", "GET", PLAN, b"")
            time.sleep(1)  # in which it comes to the queue
        rows.equal("bravo beside them", 200, beside.result().status)
        last = ask_until_let_through(port, "alfa", "GET", "/status", b"")
        rows.equal("alfa when some are done", 200, last.status)
        until("the end of all that were under way", lambda: len(bare.paths) == AT_ONCE + 2)
    before = bare.paths.index(PLAN)
    rows.holds(f"alfa's requests before bravo's: {before} of {AT_ONCE}", before < AT_ONCE // 2)
    rows.equal("connections to the desk at once", 1, bare.most)
