"""Refusals in their order, by the table of the rules."""
import pytest
from asking import ID, desk, plan, request, volume
from mock_desk.desk import play

STATUS = b"GET /status HTTP/1.1\r\nx-operator: alfa\r\n"
READY = (
    b"HTTP/1.1 200 OK\r\ncontent-type: application/json\r\ncontent-length: 18\r\nconnection: close\r\n\r\n"
    b'{"status":"Ready"}'
)


def told(given: bytes) -> tuple[list[tuple[int, str]], str]:
    """The status and the word of each answer, and the word at the end."""
    found = list(play(desk(), given))
    return [(int(it.split()[1]), it.split(b'"')[3].decode()) for it, _ in found if it], found[-1][1] if found else ""


def test_a_stream() -> None:
    answers = list(play(desk(), (STATUS + b"\r\n") * 2))
    assert answers == [(READY, ""), (READY, "")]
    assert told(b"") == ([], "")
    assert told(STATUS + b"\r\n" + STATUS) == ([(200, "Ready")], "cut_short")
    assert told(STATUS + b"content-length: 5\r\n\r\n1234") == ([], "cut_short")


@pytest.mark.parametrize(
    "head, ready",
    [
        (b"GET /status HTTP/1.0\nx-operator:alfa\n\n", True),
        (b"\r\nGET /status?x HTTP/1.1\r\nX-Operator: \t alfa \r\n\r\n", True),
        (STATUS + b"x: \x80\xff\t\r\n\r\n", True),
        (STATUS + b"x: y\r\n" * 63 + b"\r\n", True),
        (STATUS + b"x: y\r\n" * 64 + b"\r\n", False),
        (b"\r\n\r\n" + STATUS + b"\r\n", False),
        (b"GET  /status HTTP/1.1\r\n\r\n", False),
        (b"GET /status HTTP/2.0\r\n\r\n", False),
        (b"GET /status\r\n\r\n", False),
        (b"G(T /status HTTP/1.1\r\n\r\n", False),
        (STATUS + b"x : y\r\n\r\n", False),
        (STATUS + b"x: y\r\n z\r\n\r\n", False),
        (STATUS + b"x: \x00\r\n\r\n", False),
        (STATUS + b"x: a\rb\r\n\r\n", False),
        (STATUS + b": y\r\n\r\n", False),
        (STATUS + b"x\r\n\r\n", False),
        (STATUS + b"content-length: 0\r\ncontent-length: 0\r\n\r\n", False),
        (STATUS + b"content-length: x\r\n\r\n", False),
        (STATUS + b"content-length: 00000000000000000000\r\n\r\n", False),
        (STATUS + b"content-length: 0000000000000000000\r\n\r\n", True),
    ],
)
def test_heads(head: bytes, ready: bool) -> None:
    assert told(head) == (([(200, "Ready")], "") if ready else ([(400, "bad_head")], "unframed"))


@pytest.mark.parametrize("length, word", [(16_384, "Ready"), (16_385, "too_large")])
def test_the_longest_head(length: int, word: str) -> None:
    head = STATUS + b"x: "
    assert told(head + b"a" * (length - len(head) - 4) + b"\r\n\r\n")[0][0][1] == word


def test_codings_and_lengths() -> None:
    assert told(STATUS + b"transfer-encoding: x\r\ncontent-length: x\r\n\r\n") == (
        [(501, "transfer_encoding")],
        "unframed",
    )
    assert told(STATUS + b"content-length: 131073\r\n\r\n") == ([(413, "too_large")], "unframed")
    assert told(STATUS + b"content-length: 131072\r\n\r\n" + b" " * 131_072) == ([(200, "Ready")], "")


@pytest.mark.parametrize(
    "given, status, word",
    [
        (request("X", "/statuses", ""), 404, "no_route"),
        (request("GET", "/flight_plans/"), 404, "no_route"),
        (request("GET", f"/flight_plans/{ID}/"), 404, "no_route"),
        (request("GET", "http://desk/status"), 404, "no_route"),
        (request("X", "/flight_plans/x", ""), 405, "method"),
        (request("GET", "/flight_plans/x", "Alfa"), 400, "bad_operator"),
        (request("GET", "/flight_plans/x", "a" * 33), 400, "bad_operator"),
        (request("PUT", "/flight_plans/x", "nobody", b"{"), 400, "bad_plan_id"),
        (request("PUT", f"/flight_plans/{ID}", "nobody", b"{"), 400, "bad_json"),
        (request("PUT", f"/flight_plans/{ID}", "nobody", b"{}"), 400, "bad_member"),
        (request("PUT", f"/flight_plans/{ID}", "nobody", plan(volume(["0"]))), 400, "bad_volume"),
        (request("PUT", f"/flight_plans/{ID}", "nobody", plan()), 403, "unknown_operator"),
        (request("GET", f"/flight_plans/{ID}", "nobody"), 403, "unknown_operator"),
        (request("DELETE", f"/flight_plans/{ID}"), 404, "no_such_plan"),
        (request("GET", "/status", "nobody"), 403, "unknown_operator"),
    ],
)
def test_places_6_to_14(given: bytes, status: int, word: str) -> None:
    assert told(given) == ([(status, word)], "")


def test_the_methods_of_a_path() -> None:
    ((answer, _),) = play(desk(), request("PATCH", f"/flight_plans/{ID}"))
    head = b"HTTP/1.1 405 Method Not Allowed\r\ncontent-type: application/json\r\ncontent-length: 18\r\n"
    assert answer == head + b'allow: DELETE, GET, PUT\r\nconnection: close\r\n\r\n{"error":"method"}'


def test_operator_twice() -> None:
    assert told(STATUS + b"x-operator: alfa\r\n\r\n") == ([(400, "bad_operator")], "")


@pytest.mark.parametrize(
    "written, word",
    [
        (ID, "no_such_plan"),
        (ID.replace("-", ""), "no_such_plan"),
        ("ABCDEFAB-1111-4111-8111-111111111111", "no_such_plan"),
        (f"{{{ID}}}", "no_such_plan"),
        (f"urn:uuid:{ID}", "no_such_plan"),
        (f"URN:UUID:{ID}", "no_such_plan"),
        (f"{{{ID.replace('-', '')}}}", "bad_plan_id"),
        (f"urn:uuid:{ID.replace('-', '')}", "bad_plan_id"),
        (f"urn:uuid:{{{ID}}}", "bad_plan_id"),
        (ID[:-1], "bad_plan_id"),
        (ID.replace("-", "", 1), "bad_plan_id"),
        (f"%7B{ID}%7D", "bad_plan_id"),
    ],
)
def test_ids(written: str, word: str) -> None:
    assert told(request("GET", f"/flight_plans/{written}"))[0][0][1] == word
