"""Asking the desk over HTTP.

A request that may be lost is asked again, for at most `patience` seconds: when no answer came, after 429, 500, 502,
503 and 504. A PUT that may have been done is looked for first (docs/api.md, "When no answer came").
"""
from __future__ import annotations

import base64
import http.client
import ipaddress
import json
import logging
import random
import re
import ssl
import time
import uuid
from dataclasses import dataclass
from typing import Any, Callable, Iterator, List, Mapping, Optional, Sequence, Tuple, TypeVar, Union
from urllib.parse import quote, urlsplit

from uss_desk_client.answers import Answer, Cleared, Plan
from uss_desk_client.areas import Volume
from uss_desk_client.bodies import put_body
from uss_desk_client.checking import Fault, check, check_clear
from uss_desk_client.errors import DeskError
from uss_desk_client.free import MOST_REQUESTS, STEP, Search, searches
from uss_desk_client.units import Time, second_down, second_up
from uss_desk_client.watching import EVERY, LEAST_EVERY, Change, Watch

LOG = logging.getLogger("uss_desk_client")
Told = TypeVar("Told")

ADVICE = {
    "too_large": "the request is too large: a body has at most 131,072 bytes, a head 16,384",
    "bad_head": "the head of the request is malformed: is there a proxy that changes it?",
    "transfer_encoding": "a proxy has put in a transfer-encoding: let it hand on a content-length",
    "no_route": "the URL of the desk is wrong: it is that before /flight_plans",
    "method": "the URL of the desk is wrong, or a proxy changes the method",
    "bad_operator": "at the desk's own port give Desk an operator, 1 to 32 of a-z, 0-9 and -; else ask the"
    " administrator",
    "bad_plan_id": "the id of a plan is a UUID",
    "bad_json": "the body is no JSON",
    "bad_member": "a member of the body is missing or malformed",
    "bad_volume": "a volume is malformed or out of its limits",
    "too_many_cells": "a rectangle's cover has more than 1,024 cells: take a lower level",
    "unauthorized": "the user's name or password is wrong: ask the administrator of the desk",
    "certificate": "the proxy asks for a client certificate: ask the administrator of the desk",
    "forbidden": "the proxy can't read its passwords: report it to the administrator of the desk",
    "from_a_page": "the request has a field Origin or Sec-Fetch-Site: ask from a program, not from a web page",
    "host": "the proxy's port without TLS has another name: use 127.0.0.1, localhost or https",
    "timeout": "the request wasn't there in time: send it again",
    "proxy": "the proxy could not carry it out: what was asked may be there or not",
    "unknown_operator": "the operator isn't enrolled: ask the administrator of the desk",
    "no_such_plan": "the operator has no plan with this id: list the plans",
    "too_many_requests": "too many requests in a short time: ask more slowly",
    "out_of_memory": "the desk ended and is started again: nothing was changed",
    "store": "the desk ended and is started again: what was asked may be there or not",
    "bad_gateway": "the desk doesn't answer its proxy: it may be starting again",
    "unavailable": "the proxy could not carry it out now: ask again",
    "gateway_timeout": "the desk didn't answer its proxy in time: what was asked may be there or not",
}
"""What to do after each word."""

WORDS = {
    401: "unauthorized",
    403: "unknown_operator",
    413: "too_large",
    414: "too_large",
    429: "too_many_requests",
    502: "bad_gateway",
    503: "unavailable",
    504: "gateway_timeout",
}
"""The word of a status of a proxy that answers none of its own."""
AGAIN = (429, 500, 502, 503, 504)
"""Statuses after which a request is asked again."""
UNTOUCHED = (429,)
"""Of these, those after which nothing was done."""
PLANS, CLEARS = "/flight_plans", "/clear_area_requests"
FIRST_PAUSE, LONGEST_PAUSE = 0.2, 5.0
"""Seconds before a request is asked again, at first and at most."""
TELL_EACH = 5.0
"""Seconds between two lines that say what is waited for."""
Tell = Callable[[str], None]


class Refused(DeskError):
    """An answer other than 200 that asking again doesn't change."""

    def __init__(self, status: int, word: str, fault: Optional[Fault] = None, request_id: str = "") -> None:
        self.status, self.word, self.fault, self.request_id = status, word, fault, request_id
        self.advice = ADVICE.get(word, "this client doesn't know that error code: a later version may")
        text = f"{status} {fault}" if fault else f"{status} {word}: {self.advice}"
        super().__init__(text + named_by(request_id))


class NoSuchPlan(Refused):
    """The operator has no plan with this id."""


class NoAnswer(DeskError):
    """No answer came within the patience, or only ones that say to ask again.

    `may_stand` says whether what was asked may have been done all the same: show the plan, and ask again what isn't
    there.
    """

    def __init__(self, last: str, seconds: float, may_stand: bool) -> None:
        self.last, self.may_stand = last, may_stand
        stands = "what was asked may stand or not" if may_stand else "nothing was changed"
        super().__init__(f"no answer within {seconds:g} s ({last}); {stands}")


class BadAnswer(DeskError):
    """An answer that no desk gives: is the URL that of another server?"""


def named_by(request_id: str) -> str:
    """What a message ends with, so that the administrator finds the request in the proxy's log by its id."""
    return f" (request {request_id})" if request_id else ""


class Lost(Exception):
    """Of one attempt: no whole answer came."""

    def __init__(self, why: BaseException, may_stand: bool) -> None:
        super().__init__(f"{type(why).__name__}: {why}" if str(why) else type(why).__name__)
        self.may_stand = may_stand


@dataclass(frozen=True)
class Response:
    """One answer as it came."""

    status: int
    body: bytes
    retry_after: float
    request_id: str = ""

    @property
    def value(self) -> Any:
        try:
            return json.loads(self.body)
        except ValueError:
            return None

    @property
    def word(self) -> str:
        value = self.value
        word = value.get("error") if isinstance(value, dict) else None
        return str(word) if word else WORDS.get(self.status, "")


def told(make: Callable[[Any], Told], value: Any) -> Told:
    """What is made of an answer; a BadAnswer if it has another form than a desk's."""
    try:
        return make(value)
    except (AttributeError, IndexError, KeyError, TypeError, ValueError) as wrong:
        raise BadAnswer(f"the answer isn't that of a desk: {wrong!r} in {str(value)[:80]}") from None


def is_loopback(host: str) -> bool:
    """Whether a host is this machine, by its name or its address."""
    try:
        return host == "localhost" or ipaddress.ip_address(host).is_loopback
    except ValueError:
        return False


def path_of(plan_id: str) -> str:
    return f"{PLANS}/{quote(plan_id, safe='')}"


def new_id() -> str:
    """A new id for a plan."""
    return str(uuid.uuid4())


class Desk:
    """A desk, asked as one operator.

    `Desk("https://desk.example", user="alfa", password=..)` asks behind a proxy that authenticates;
    `Desk("http://127.0.0.1:8080", operator="alfa")` asks at the desk's own port. `timeout` is how many seconds an
    attempt waits for the next bytes, `patience` after how many a request isn't asked again; meanwhile `tell` is called
    with a line that says why, at once and each five seconds. Methods raise Refused (NoSuchPlan) if the desk refuses a
    request, NoAnswer if none came, BadAnswer; a PUT that was decided and refused is an Answer. Threads may share one:
    it keeps no connection, and nothing in it changes. Requests are logged to the logger `uss_desk_client`.
    """

    def __init__(
        self,
        url: str,
        *,
        operator: Optional[str] = None,
        user: Optional[str] = None,
        password: str = "",
        timeout: float = 30.0,
        patience: float = 60.0,
        tls: Optional[ssl.SSLContext] = None,
        tell: Optional[Tell] = None,
    ) -> None:
        parts = urlsplit(url)
        if parts.scheme not in ("http", "https") or not parts.hostname or parts.query or parts.fragment:
            raise ValueError(f"{url!r} is no URL of a desk, as https://desk.example")
        if (operator is None) == (user is None):
            raise ValueError("a desk is asked with a user's name and password, or as an operator at its own port")
        if user is not None and parts.scheme == "http" and not is_loopback(parts.hostname):
            raise ValueError(f"a password is sent to {parts.hostname} over https alone: http can be read on its way")
        self._host, self._port, self._path = parts.hostname, parts.port, parts.path.rstrip("/")
        self._tls = (tls or ssl.create_default_context()) if parts.scheme == "https" else None
        self._timeout, self._patience, self._tell = timeout, patience, tell
        if operator is not None:
            self._fields = {"x-operator": operator}
        else:
            token = base64.b64encode(f"{user}:{password}".encode()).decode()
            self._fields = {"authorization": f"Basic {token}"}

    # ---- what is asked

    def status(self, patience: Optional[float] = None) -> str:
        """`Ready`; a NoAnswer if the desk doesn't answer within the patience, or another number of seconds."""
        return told(lambda value: str(value["status"]), self._read("/status", patience))

    def plan(self, plan_id: str, area: Sequence[Volume], priority: int = 0) -> Answer:
        """Plans a flight under an id of the caller's choice (`new_id`), or replaces a planned one."""
        return self.put(plan_id, put_body(area, "Planned", "Nominal", priority, "IfAllowed"))

    def try_plan(
        self, area: Sequence[Volume], priority: int = 0, plan_id: Optional[str] = None, usage: str = "Planned"
    ) -> Answer:
        """What `plan` would answer now, or `activate` with the usage InUse; nothing is stored. With a plan's id its
        stored version doesn't block."""
        return self.put(plan_id or new_id(), put_body(area, usage, "Nominal", priority, "Hypothetical"))

    def activate(
        self, plan_id: str, area: Optional[Sequence[Volume]] = None, priority: Optional[int] = None
    ) -> Answer:
        """Takes a flight into use, as it is stored or with another area or priority."""
        return self._put_again(plan_id, "InUse", "Nominal", area, priority)

    def report(
        self,
        plan_id: str,
        aircraft: str = "OffNominal",
        area: Optional[Sequence[Volume]] = None,
        priority: Optional[int] = None,
    ) -> Answer:
        """Reports an aircraft that is off its plan, `OffNominal` or `Contingent`, and where it may be now."""
        return self._put_again(plan_id, "InUse", aircraft, area, priority)

    def change(self, plan_id: str, area: Optional[Sequence[Volume]] = None, priority: Optional[int] = None) -> Answer:
        """Changes the area or the priority of a plan, which stays planned or in use; in use, it is nominal then. Of a
        closed plan the desk refuses it."""
        stored = self.show(plan_id)
        return self._put_stored(stored, "InUse" if stored.usage == "InUse" else "Planned", "Nominal", area, priority)

    def close(self, plan_id: str) -> Answer:
        """Closes a plan. A closed one stays closed."""
        path = path_of(plan_id)
        response, was_lost = self._again("DELETE", path, None)
        return told(lambda value: Answer.from_answer(value, was_lost), self._object(response, path))

    def show(self, plan_id: str) -> Plan:
        """A plan, with its conflict if it has one now."""
        return told(Plan.from_answer, self._read(path_of(plan_id)))

    def plans(self) -> List[Plan]:
        """All plans of the operator, closed ones too, ascending by id."""
        return self._plans_of(self._read(PLANS))

    def find_free(
        self,
        area: Sequence[Volume],
        within: Tuple[Time, Time],
        step: int = STEP,
        *,
        priority: int = 0,
        plan_id: Optional[str] = None,
        usage: str = "Planned",
        most: int = MOST_REQUESTS,
        progress: Optional[Callable[[Search], object]] = None,
    ) -> Search:
        """The times between two moments in which a flight of this area and priority may be planned, to `step` seconds.

        All of the area is wanted at all times. The flight takes as long as the area does, from its first start to its
        last end. With a plan's id its stored version doesn't block. At most `most` PUTs are asked, no more of them in a
        second than a proxy lets through; `progress` is called after each. (`free.searches` is the same as an
        iterator.) A NotTaken is raised if the flight is refused for another reason than a conflict.
        """
        for found in searches(self, area, within, step, priority=priority, plan_id=plan_id, usage=usage, most=most):
            if progress:
                progress(found)
        return found

    def watch(self, every: float = EVERY) -> Iterator[Change]:
        """Each change at the operator's plans, as it is seen: above all, that somebody is planned over one. It lists
        the plans each `every` seconds, and goes on for ever. A desk that doesn't answer is no change: it is looked
        again. Whoever has a clock of its own uses `watching`."""
        if every < LEAST_EVERY:
            raise ValueError(f"plans are listed at most each {LEAST_EVERY:g} s: a proxy lets twelve a minute through")
        watch = self.watching()
        while True:
            next_look = time.monotonic() + every
            try:
                yield from watch.look()
            except NoAnswer as lost:
                LOG.warning("no look at the plans: %s", lost)
                if self._tell:
                    self._tell(f"no look at the plans ({lost.last}); looking again in {every:g} s")
            time.sleep(max(0.0, next_look - time.monotonic()))

    def watching(self) -> Watch:
        """What looks for changes at the operator's plans: each `look` is one List, which isn't asked again."""
        return Watch(lambda: self._plans_of(self._once(PLANS)))

    def clear(self, area: Sequence[Volume]) -> Cleared:
        """Removes the operator's plans, closed ones too, that share a point with a volume of an area, which may be of
        any size: one request for each volume."""
        count, is_lost = 0, False
        for extent in area:
            body = {"extent": extent.to_json()}
            response, was_lost = self._again("POST", CLEARS, body)
            count += told(
                lambda value: int(value["outcome"]["message"].split()[-1]), self._object(response, CLEARS, body)
            )
            is_lost = is_lost or was_lost
        return Cleared(count, is_lost)

    def put(self, plan_id: str, body: Mapping[str, Any]) -> Answer:
        """Asks a PUT with this body. One that may have been done is looked for. It is put again if it isn't there, and
        if it has a conflict: it may have been there before, and the PUT refused for that."""
        until, path = Deadline(self._patience, self._tell), path_of(plan_id)
        was_lost, is_stored = False, body.get("execution_style") != "Hypothetical"
        while True:
            tried = self._try("PUT", path, body, until)
            if isinstance(tried, Response):
                answered = self._object(tried, path, body)
                return told(lambda value: Answer.from_answer(value, was_lost), answered)
            was_lost = was_lost or tried.may_stand
            until.wait(tried, was_lost and is_stored)
            if tried.may_stand and is_stored:
                stored = self._find(plan_id, until)
                if stored and stored.conflict is None and is_as_put(stored, body):
                    return Answer("Completed", stored.status, was_lost=True)

    # ---- how it is asked

    def _put_again(
        self, plan_id: str, usage: str, aircraft: str, area: Optional[Sequence[Volume]], priority: Optional[int]
    ) -> Answer:
        if area is not None and priority is not None:
            return self.put(plan_id, put_body(area, usage, aircraft, priority, "IfAllowed"))
        return self._put_stored(self.show(plan_id), usage, aircraft, area, priority)

    def _put_stored(
        self, stored: Plan, usage: str, aircraft: str, area: Optional[Sequence[Volume]], priority: Optional[int]
    ) -> Answer:
        return self.put(
            stored.plan_id,
            put_body(
                stored.area if area is None else area,
                usage,
                aircraft,
                stored.priority if priority is None else priority,
                "IfAllowed",
            ),
        )

    def _read(self, path: str, patience: Optional[float] = None) -> Any:
        return self._object(self._again("GET", path, None, patience)[0], path)

    def _once(self, path: str) -> Any:
        """The object that a GET is answered with; a NoAnswer if the first attempt has none."""
        tried = self._try("GET", path, None, Deadline(self._timeout))
        if isinstance(tried, Unsettled):
            raise NoAnswer(tried.told, self._timeout, False)
        return self._object(tried, path)

    @staticmethod
    def _plans_of(value: Any) -> List[Plan]:
        return told(lambda listed: list(map(Plan.from_answer, listed["flight_plans"])), value)

    def _find(self, plan_id: str, until: Deadline) -> Optional[Plan]:
        """The plan as it is stored, or None if there is none or it couldn't be told."""
        path = path_of(plan_id)
        tried = self._try("GET", path, None, until)
        if isinstance(tried, Unsettled) or tried.status == 404:
            return None
        return told(Plan.from_answer, self._object(tried, path))

    def _again(
        self, method: str, path: str, body: Optional[Mapping[str, Any]], patience: Optional[float] = None
    ) -> Tuple[Response, bool]:
        """The answer to a request that may be asked any number of times, and whether an earlier one was lost."""
        until = Deadline(self._patience if patience is None else patience, self._tell)
        was_lost = False
        while True:
            tried = self._try(method, path, body, until)
            if isinstance(tried, Response):
                return tried, was_lost
            was_lost = was_lost or (tried.may_stand and method != "GET")
            until.wait(tried, was_lost)

    def _try(
        self, method: str, path: str, body: Optional[Mapping[str, Any]], until: Deadline
    ) -> Union[Response, Unsettled]:
        """One attempt, after which the request is settled or is to be asked again."""
        try:
            response = self._ask(method, path, body, min(self._timeout, max(until.left(), 0.1)))
        except Lost as lost:
            LOG.debug("%s %s: no answer (%s)", method, path, lost)
            return Unsettled(str(lost), lost.may_stand, 0.0)
        LOG.debug("%s %s: %d", method, path, response.status)
        if response.status in AGAIN:
            told = f"{response.status} {response.word}".strip() + named_by(response.request_id)
            return Unsettled(told, response.status not in UNTOUCHED, response.retry_after)
        return response

    def _ask(self, method: str, path: str, body: Optional[Mapping[str, Any]], timeout: float) -> Response:
        """Sends one request over a connection of its own, and takes its answer."""
        data = None if body is None else json.dumps(body, separators=(",", ":")).encode()
        fields = {**self._fields, "connection": "close", "accept": "application/json"}
        if data is not None:
            fields["content-type"] = "application/json"
        connection = self._connection(timeout)
        is_sent = False
        try:
            connection.connect()
            is_sent = True
            connection.request(method, self._path + path, body=data, headers=fields)
            answer = connection.getresponse()
            after, request_id = answer.getheader("retry-after"), answer.getheader("x-request-id", "")
            return Response(answer.status, answer.read(), seconds_of(after), request_id)
        except (OSError, http.client.HTTPException) as why:
            if isinstance(why, ssl.SSLCertVerificationError):
                raise BadAnswer(f"the desk's certificate isn't trusted: {why.verify_message}") from None
            raise Lost(why, is_sent) from None
        finally:
            connection.close()

    def _connection(self, timeout: float) -> http.client.HTTPConnection:
        if self._tls:
            return http.client.HTTPSConnection(self._host, self._port, timeout=timeout, context=self._tls)
        return http.client.HTTPConnection(self._host, self._port, timeout=timeout)

    def _object(self, response: Response, path: str, body: Optional[Mapping[str, Any]] = None) -> Any:
        """The object that an answer 200 has; other answers are raised."""
        if response.status != 200:
            raise self._refusal(response, path, body)
        if not isinstance(response.value, dict):
            raise BadAnswer(f"{path}: the answer is no object of JSON: {response.body[:80]!r}")
        return response.value

    @staticmethod
    def _refusal(response: Response, path: str, body: Optional[Mapping[str, Any]]) -> DeskError:
        if not response.word:
            return BadAnswer(f"{path}: an answer {response.status} without a word: {response.body[:80]!r}")
        fault: Optional[Fault] = None
        if response.status == 400 and body is not None:
            fault = check_clear(body) if "extent" in body else check(body)
        if response.word == "no_such_plan":
            return NoSuchPlan(response.status, response.word, request_id=response.request_id)
        return Refused(response.status, response.word, fault, response.request_id)


@dataclass(frozen=True)
class Unsettled:
    """What came of an attempt after which a request is asked again."""

    told: str
    may_stand: bool
    retry_after: float


class Deadline:
    """How long a call is asked again, with pauses that grow."""

    def __init__(self, patience: float, tell: Optional[Tell] = None) -> None:
        self._patience, self._end, self._pause = patience, time.monotonic() + patience, FIRST_PAUSE
        self._tell, self._tell_at = tell, time.monotonic()

    def left(self) -> float:
        return self._end - time.monotonic()

    def wait(self, tried: Unsettled, may_stand: bool) -> None:
        """Waits before the next attempt; a NoAnswer if there is no time for one."""
        pause = max(self._pause * random.uniform(0.5, 1.0), tried.retry_after)
        if pause >= self.left():
            raise NoAnswer(tried.told, self._patience, may_stand)
        end = time.monotonic() + pause
        while time.monotonic() < end:
            time.sleep(min(max(end - time.monotonic(), 0), self._until_told(tried.told)))
        self._pause = min(self._pause * 2, LONGEST_PAUSE)

    def _until_told(self, why: str) -> float:
        """The seconds until it is told again why a request waits; now, if it is time."""
        now = time.monotonic()
        if now >= self._tell_at:
            self._tell_at = now + TELL_EACH
            if self._tell:
                self._tell(f"no answer yet ({why}); asking again for {max(self.left(), 0):.0f} s")
        return self._tell_at - now


def seconds_of(field: Optional[str]) -> float:
    """The seconds of a field retry-after; 0 if there is none, or a date."""
    return float(field) if field and re.fullmatch(r"\d{1,4}", field.strip()) else 0.0


def is_as_put(stored: Plan, body: Mapping[str, Any]) -> bool:
    """Whether a stored plan is what a body asks for; none is what a malformed one asks for."""
    if check(body):
        return False
    plan = body["flight_plan"]
    basic = plan["basic_information"]
    if basic["usage_state"] == "Closed":
        return stored.usage == "Closed"
    priority = (plan.get("astm_f3548_21") or {}).get("priority") or 0
    wanted = (basic["usage_state"], basic["uas_state"], priority, [volume_put(volume) for volume in basic["area"]])
    return (stored.usage, stored.aircraft, stored.priority, list(stored.area)) == wanted


def volume_put(volume: Mapping[str, Any]) -> Optional[Volume]:
    """The volume that a member of a PUT's `area` asks for, as the desk shows it."""
    shape = volume["volume"]
    shown = {
        **shape,
        "second_start": second_down(volume["time_start"]["value"]),
        "second_end": second_up(volume["time_end"]["value"]),
    }
    return Volume.from_answer({name: value for name, value in shown.items() if value is not None}).printed()
