"""The heads of random requests, from plain to hostile."""
from __future__ import annotations

from random import Random
from typing import List, Tuple

from .scenes import FIRST_USES, NEXT_USES, Scene

METHODS = ["GET", "PUT", "POST", "DELETE", "HEAD", "PATCH", "OPTIONS", "get", "X", "!#$%&'*+-.^_`|~9", "GETT"]
# fmt: off
PATHS = [
    "/", "", "*", "//status", "/status/", "/Status", "/statuss", "/flight_plans/", "/flight_plan",
    "/flight_plans//", "/clear_area_requests/", "http://desk/status", "/%73tatus", "/status%3f", "/status#x",
    "/status;x", "/\u00e4", "/flight_plans/x/y", "status", "desk:80", "/./status", "/flight_plans/../status",
    "?", "/?/status", '/"<>\\^`{|}',
]
# fmt: on
# fmt: off
EXTRA = [
    "host: desk", "Accept: */*", "expect: 100-continue", "connection: keep-alive", "x-empty:", "x-blank: \t ",
    "X_Y.z~: 1", "x-operators: alfa", "x-other: a\tb  c", "x-obs: \u00e4", "upgrade: h2c",
    "content-type: text/plain", "x: ::",
]
# fmt: on
# fmt: off
ODD_NAMES = [
    "", "Alfa", "a b", "a_b", "z" * 33, "alfa,bravo", "\u00e4", "alfa\t", " alfa", "nobody", "a" * 64,
    "alfa;",
]
# fmt: on
# fmt: off
ODD_LENGTHS = [
    "", "x", "+1", "-1", "1.0", "0x1", "1 1", "1,1", "131073", "9" * 19, "1" + "0" * 18, "0" * 20, "0" * 19,
    "9" * 20, "\t0 ",
]
# fmt: on
# Bytes that hostile heads have in strange places.
# fmt: off
STRANGE = [
    b"\x00", b"\r", b"\n", b"\r\n", b" ", b"\t", b":", b"\x7f", b"\x80", b"\xff", b'"', b"(", b"/", b"a",
    b"\x0b", b"\x1f", b"\r\r\n", b"<", b">", b"{", b"\\", b"#", b"?", b"%", b"\xc3\xa4", b"@", b"\n ",
    b"\r\n\t", b"HTTP/1.1",
]
# fmt: on
VERSIONS = ["HTTP/1.1"] * 5 + [
    "HTTP/1.0",
    "HTTP/1.2",
    "HTTP/2.0",
    "HTTP/0.9",
    "http/1.1",
    "HTTP/1.",
    "HTTP/1.10",
    "HTTP/01.1",
    "HTTP/1.1 ",
    "",
]


def field_case(name: str, dice: Random) -> str:
    """A field's name in letters of any case."""
    return name if dice.random() < 0.8 else "".join(dice.choice([it.upper(), it]) for it in name)


def field(name: str, value: str, dice: Random) -> str:
    """A field, at times with more or fewer blanks."""
    before, after = (
        (": ", "")
        if dice.random() < 0.85
        else (dice.choice([":", ":  ", ":\t", ": \t "]), dice.choice(["", " ", "\t", " \t"]))
    )
    return field_case(name, dice) + before + value + after


def joined(lines: List[str], dice: Random) -> bytes:
    """The lines of a head with their ends: CR LF, or LF alone, or now and then a mixture."""
    ends = dice.choice([["\r\n"]] * 8 + [["\n"], ["\r\n", "\n"]])
    return "".join(line + dice.choice(ends) for line in [*lines, ""]).encode()


def call(scene: Scene) -> Tuple[str, str, str, bytes]:
    """An operator, and a method, a path and a body that go together."""
    dice = scene.dice
    kind = dice.choice(["put"] * 24 + ["show"] * 6 + ["list"] * 2 + ["delete", "clear", "status"])
    if kind == "clear":
        return dice.choice(scene.names), "POST", "/clear_area_requests", scene.text(scene.clear_tree())
    operator, digits = scene.named()
    path = f"/flight_plans/{scene.plan_id(digits)}"
    if kind == "put":
        again = (operator, digits) in scene.asked
        scene.asked.append((operator, digits))
        return operator, "PUT", path, scene.text(scene.put_tree(NEXT_USES if again else FIRST_USES))
    body = b"" if dice.random() < 0.95 else dice.choice([b"x", b"{}", b"\r\n\r\n", b"GET /status HTTP/1.1\r\n\r\n"])
    path = {"list": "/flight_plans", "status": "/status"}.get(kind, path)
    return operator, "DELETE" if kind == "delete" else "GET", path, body


def plain(scene: Scene) -> bytes:
    """A request whose head is well formed; what it asks may be refused at place 6 or later."""
    dice = scene.dice
    operator, method, path, body = call(scene)
    operators = [operator]
    if dice.random() < 0.02:
        method, path = dice.choice(METHODS), dice.choice([path, *PATHS])
    if dice.random() < 0.02:
        operators = dice.choice([[], operators * 2, [dice.choice(ODD_NAMES)], [operator, "nobody"], ["nobody"]])
    path += dice.choice(["", "?", "?x=/status", "?a?b"]) if dice.random() < 0.04 else ""
    lines = [field("x-operator", it, dice) for it in operators]
    lines += dice.sample(EXTRA, dice.choice([0, 1, 1, 1, 2, 5]))
    if body or dice.random() < 0.2:
        lines.append(field("content-length", f"{'0' * dice.choice([0, 0, 0, 9])}{len(body)}", dice))
    dice.shuffle(lines)
    return joined([f"{method} {path} HTTP/1.{dice.choice('1110')}", *lines], dice) + body


def hostile(scene: Scene, number: int) -> bytes:
    """A request after which the input may end: of each four, three at limits and one that is seldom right."""
    limits = at_limits(scene.names[0])
    if number % 4 < 3:
        return limits[(number // 4 * 3 + number % 4) % len(limits)]
    how = [strange_bytes, strange_bytes, strange_bytes, odd_framing, odd_first_line, odd_field]
    return scene.dice.choice(how)(scene)


def at_limits(name: str) -> List[bytes]:
    """Heads and bodies of their greatest lengths, and longer ones; 64 fields and more; lengths; lines before a head."""
    first = f"GET /status HTTP/1.1\r\nx-operator: {name}\r\n"
    found = [first + "x: y\n" * more + "\n" for more in (62, 63)]
    found += [f"{before}{first}\r\n" for before in ("\r\n", "\n", "\r\n\n", "\r")]
    for length in (16_384, 16_385):
        found.append(first + "x: " + "a" * (length - len(first) - 7) + "\r\n\r\n")
        found.append(first + "x: " + "a" * (length - len(first) - 5) + "\n\n")
        found.append(first.replace("/status", "/status?" + "a" * (length - len(first) - 3)) + "\r\n")
    found += [first + "x: " + "a" * (length - len(first) - 3) for length in (16_383, 16_384)]
    for length in (131_072, 131_073):
        found.append(f"{first}content-length: {length}\r\n\r\n" + " " * length)
    for lengths in (["0" * 18 + "1"], ["0" * 19 + "1"], ["1", "1"], ["1", "x"], [""], ["9" * 19], ["+1"]):
        fields = "".join(f"content-length: {it}\r\n" for it in lengths)
        found += [f"{first}{fields}\r\n1"]
    found += [
        f"{first}transfer-encoding: identity\r\ncontent-length: x\r\n\r\n",
        f"{first}Transfer-Encoding:\r\n\r\n",
    ]
    return [it.encode() for it in found]


def strange_bytes(scene: Scene) -> bytes:
    """A plain request with bytes put in, put in another's place, or left out, most often in its head."""
    dice = scene.dice
    given = b"GET /status HTTP/1.1\r\nx-operator: alfa\r\nHost: desk\r\n\r\n" if dice.random() < 0.5 else plain(scene)
    for _ in range(dice.choice([1, 1, 1, 2, 3])):
        at = min(dice.randrange(len(given)), dice.randrange(160))
        taken = dice.choice([0, 0, 1, 2])
        given = given[:at] + (dice.choice(STRANGE) if taken < 2 or dice.random() < 0.5 else b"") + given[at + taken :]
    return given


def odd_framing(scene: Scene) -> bytes:
    """Lengths and codings that are malformed, there twice, or past the limit."""
    dice = scene.dice
    lines = [f"content-length: {dice.choice(ODD_LENGTHS)}"]
    if dice.random() < 0.4:
        lines.append(f"Content-Length: {dice.choice([*ODD_LENGTHS, '0'])}")
    if dice.random() < 0.3:
        lines.append(
            dice.choice(
                [
                    "transfer-encoding: chunked",
                    "Transfer-Encoding:",
                    "transfer-encodings: x",
                    "transfer-encoding: identity",
                ]
            )
        )
    lines.append(f"x-operator: {dice.choice(scene.names)}")
    dice.shuffle(lines)
    return joined(
        [f"{dice.choice(METHODS)} {dice.choice(['/status', *PATHS])} HTTP/1.1", *lines], dice
    ) + b"0" * dice.choice([0, 1, 2])


def odd_first_line(scene: Scene) -> bytes:
    """A first line of other parts, blanks or versions."""
    dice = scene.dice
    blank = [dice.choice([" "] * 8 + ["  ", "\t", "", "\x0b"]) for _ in range(2)]
    method = dice.choice(["GET"] * 6 + [*METHODS, "", "G T", "G(T", "GE\u00e4"])
    line = dice.choice([""] * 9 + [" ", "\t", "\r\n", "\n", "\r"]) + method + blank[0]
    line += dice.choice(["/status"] * 6 + PATHS) + blank[1] + dice.choice(VERSIONS)
    return joined([line, f"x-operator: {scene.names[0]}"], dice)


def odd_field(scene: Scene) -> bytes:
    """A field that is malformed, or nearly."""
    dice = scene.dice
    odd = [
        ": x",
        "x",
        "x y: z",
        "x : y",
        "x\t: y",
        " x: y",
        "\tx: y",
        "x:\u00e4",
        "\u00e4: x",
        "x: \x7f",
        "x: \x01",
        "x(: y",
        '"x": y',
        "x: a\rb",
    ]
    odd += [
        "x: y\r",
        "x/y: z",
        "x@y: z",
        "x,y: z",
        "!#$%&'*+-.^_`|~: z",
        "x:",
        "x: y z",
        "x: \x00",
        "x-operator",
        "[x]: y",
        "{x}: y",
        "\\x: y",
    ]
    lines = [f"x-operator: {scene.names[0]}", dice.choice(odd), *dice.sample(EXTRA, 1)]
    dice.shuffle(lines)
    return joined(["GET /status HTTP/1.1", *lines], dice)
