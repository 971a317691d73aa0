"""The bytes of a request: where it ends, who asks for what, or the refusal of places 1 to 9."""
from __future__ import annotations

import re
import uuid
from typing import List, NamedTuple, Optional, Tuple

HEAD_MOST = 16_384
FIELDS_MOST = 64
BODY_MOST = 131_072

REQUEST_LINE = re.compile(rb"([!#$%&'*+.^_`|~0-9A-Za-z-]+) ([^\x00-\x20\x7f]+) HTTP/1\.[01]")
FIELD_LINE = re.compile(rb"([!#$%&'*+.^_`|~0-9A-Za-z-]+):[ \t]*([^\x00-\x08\x0a-\x1f\x7f]*)")
UUID_FORMS = re.compile(
    r"(urn:uuid:)?{hex}|\{{{hex}\}}|[0-9a-f]{{32}}".format(hex="[0-9a-f]{8}(-[0-9a-f]{4}){3}-[0-9a-f]{12}")
)
METHODS = {"status": ("GET",), "list": ("GET",), "plan": ("DELETE", "GET", "PUT"), "clear": ("POST",)}
PATHS = {"/status": "status", "/flight_plans": "list", "/clear_area_requests": "clear"}


class Refusal(Exception):
    """A request that is refused by a status and a word; `allow` has the methods of a path that hasn't the one asked."""

    def __init__(self, status: int, word: str, allow: Tuple[str, ...] = ()) -> None:
        super().__init__(status, word, allow)
        self.status, self.word, self.allow = status, word, allow


class Request(NamedTuple):
    """A whole request."""

    method: str
    target: str
    fields: List[Tuple[bytes, bytes]]
    body: bytes

    def values(self, name: bytes) -> List[bytes]:
        """The values of all fields of a name."""
        return values_of(self.fields, name)


class Address(NamedTuple):
    """Who asks for what: a resource, the operator's name, and the plan's id in hyphenated lower case."""

    resource: str
    operator: str
    plan_id: Optional[str]


def values_of(fields: List[Tuple[bytes, bytes]], name: bytes) -> List[bytes]:
    """The values of all fields of a name, in the order given."""
    return [value for field, value in fields if field == name]


def head_length(given: bytes) -> Optional[int]:
    """The length of the shortest prefix that ends in LF LF or in LF CR LF; None if there is none."""
    found = re.search(rb"\n\r?\n", given[:HEAD_MOST])
    return found.end() if found else None


def read_head(head: bytes) -> Tuple[str, str, List[Tuple[bytes, bytes]]]:
    """The method, the target and the fields of a head; raises `bad_head`."""
    lines = [line[:-1] if line.endswith(b"\r") else line for line in head.split(b"\n")[:-2]]
    if lines and not lines[0]:
        del lines[0]
    asked = REQUEST_LINE.fullmatch(lines[0]) if lines else None
    fields = [FIELD_LINE.fullmatch(line) for line in lines[1:]]
    if not asked or not all(fields) or len(fields) > FIELDS_MOST:
        raise Refusal(400, "bad_head")
    pairs = [(field[1].lower(), field[2].rstrip(b" \t")) for field in fields if field]
    try:
        return asked[1].decode(), asked[2].decode(), pairs
    except UnicodeDecodeError:
        raise Refusal(400, "bad_head") from None


def body_length(fields: List[Tuple[bytes, bytes]]) -> int:
    """How many bytes of a body follow; raises the refusals of places 3 to 5."""
    if values_of(fields, b"transfer-encoding"):
        raise Refusal(501, "transfer_encoding")
    lengths = values_of(fields, b"content-length")
    if len(lengths) > 1 or not all(re.fullmatch(rb"[0-9]{1,19}", it) for it in lengths):
        raise Refusal(400, "bad_head")
    length = int(lengths[0]) if lengths else 0
    if length > BODY_MOST:
        raise Refusal(413, "too_large")
    return length


def next_request(given: bytes) -> Tuple[Optional[Request], int]:
    """The first request of an input and its length in bytes; None if the input ends inside it.

    Raises the refusals of places 1 to 5, after which it is unknown where the next request begins.
    """
    length = head_length(given)
    if length is None:
        if len(given) >= HEAD_MOST:
            raise Refusal(413, "too_large")
        return None, 0
    method, target, fields = read_head(given[:length])
    end = length + body_length(fields)
    if end > len(given):
        return None, 0
    return Request(method, target, fields, given[length:end]), end


def resource_of(target: str) -> Tuple[str, str]:
    """The resource of a path, and the id as it is written; raises `no_route`."""
    path = target.split("?")[0]
    if path in PATHS:
        return PATHS[path], ""
    found = re.fullmatch("/flight_plans/([^/]+)", path)
    if not found:
        raise Refusal(404, "no_route")
    return "plan", found[1]


def address_of(request: Request) -> Address:
    """Who asks for what; raises the refusals of places 6 to 9."""
    resource, written = resource_of(request.target)
    if request.method not in METHODS[resource]:
        raise Refusal(405, "method", METHODS[resource])
    operators = request.values(b"x-operator")
    if len(operators) != 1 or not re.fullmatch(rb"[a-z0-9-]{1,32}", operators[0]):
        raise Refusal(400, "bad_operator")
    return Address(resource, operators[0].decode(), plan_id(written) if resource == "plan" else None)


def plan_id(written: str) -> str:
    """A UUID in hyphenated lower case; raises `bad_plan_id`."""
    small = written.lower()
    if not small.isascii() or not UUID_FORMS.fullmatch(small):
        raise Refusal(400, "bad_plan_id")
    return str(uuid.UUID(small))
