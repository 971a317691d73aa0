"""What giving_up and host share: the code of the program's sources; and a list of functions that were looked at.

A line of a list is a file, a function (`use` for an import) and a sum of its code, whatever its layout, and of the
constants of its file that it names. Above the lines stands why they are right. What is in no function, shown as `- -`,
no list lets pass.
"""

from __future__ import annotations

import hashlib
import re
from collections.abc import Callable, Iterable, Iterator
from typing import NamedTuple, Optional

from items import TOP, end_of_block, index, stands, without_texts

PROGRAM = "uss_desk"
CLAUSES = re.compile(r"^\s*(?:ensures|requires)\b[\s\w]*(?=\{)", re.MULTILINE)
NO_CODE = re.compile(
    r"^\s*(?:(?P<ghost>(?:pub )?ghost\b)|#\[test\][^{]*(?=\{)|#!?(?=\[)|(?:pub(?:\([^)]*\))? )?enum\b[^{;]*(?=\{))",
    re.MULTILINE,
)
TRIAL = """use std::alloc::AllocError;
use std::io::{self, Read, Write};

fn trial<R: Read, W: Write>(n: u64, rivals: &[Held], input: &mut R, output: &mut W) -> Result<u32, StoreFault> {
    BODY
}
"""
BLOCK = re.compile(r"^(?:pub )?(?:impl|trait)\b[^{;]*(?=\{)", re.MULTILINE)
CONSTANT = re.compile(r"^(?:pub(?:\([^)]*\))? )?const (\w+):[^;]*;", re.MULTILINE)


class Function(NamedTuple):
    """Where a function, its body and its end are; its name, and the head of the `impl` or trait that it stands in."""

    start: int
    body: int
    end: int
    name: str
    head: str


Spot = tuple[int, Optional[Function]]
"""A place that a check finds, and the function around it."""


class Code:
    """A source, and its code in as many columns: no comments, literals, clauses, ghosts, attributes, enums or tests."""

    def __init__(self, source: str) -> None:
        self.source = source
        self.text = code(source)
        self.functions = list(functions(self.text))

    def around(self, at: int) -> Function | None:
        """The innermost function around a place."""
        return max((one for one in self.functions if one.start <= at < one.end), default=None)

    def place(self, function: Function | None) -> str:
        """What stands in a list for a function."""
        if function is None:
            return "- -"
        body = self.text[function.start : function.end]
        named = [mark[0] for mark in CONSTANT.finditer(self.text) if re.search(rf"\b{mark[1]}\b", body)]
        words = " ".join(" ".join([body, *named]).split())
        return f"{function.name} {hashlib.sha256(words.encode()).hexdigest()[:12]}"


def sources() -> Iterator[tuple[str, Code]]:
    """The sources of the program and of the crates that it stands on, but for their tests."""
    for crate in sorted(index().below(PROGRAM) & stands().keys()):
        paths = sorted((TOP / "crates" / crate / "src").rglob("*.rt"))
        texts = {path: path.read_text() for path in paths}
        tests = {
            path.with_suffix("") / f"{one}.rt"
            for path, text in texts.items()
            for one in re.findall(r"#\[cfg\(test\)\]\s*mod (\w+);", text)
        }
        yield from ((str(path.relative_to(TOP)), Code(text)) for path, text in texts.items() if path not in tests)


def code(source: str) -> str:
    """The code of a source alone."""
    text = without_texts(source)
    for words in (CLAUSES, NO_CODE):
        at = 0
        while mark := words.search(text, at):
            ghost = words is NO_CODE and mark["ghost"]
            at = ghost_end(text, mark.end()) if ghost else end_of_block(text, mark.end())
            text = text[: mark.start()] + re.sub(r"[^\n]", " ", text[mark.start() : at]) + text[at:]
    return text


def ghost_end(text: str, at: int) -> int:
    """The place after a ghost item at a place: after its semicolon, or after its braces if none follows them."""
    while at < len(text) and text[at] != ";":
        end = end_of_block(text, at) if text[at] in "([{" else at + 1
        if text[at] == "{" and not text[end:].lstrip().startswith(";"):
            return end
        at = end
    return at + 1


def functions(text: str) -> Iterator[Function]:
    """The functions of a code that have a body."""
    blocks = [(mark.start(), end_of_block(text, mark.end()), mark[0]) for mark in BLOCK.finditer(text)]
    for mark in re.finditer(r"\bfn\s+(\w+)", text):
        at = mark.end()
        while text[at : at + 1] not in ("{", ";", ""):
            at = end_of_block(text, at) if text[at] in "([" else at + 1
        if text[at : at + 1] == "{":
            head = next((head for start, end, head in blocks if start < mark.start() < end), "")
            yield Function(mark.start(), at, end_of_block(text, at), mark[1], head)


def is_matched(text: str, begin: int, end: int) -> bool:
    """Whether a word stands in a pattern, or beside == or !=."""
    before = re.split(r"[;{}]", text[max(0, begin - 1000) : begin])[-1]
    if re.search(r"[!=]=\s*[\w:]*$", before) or re.search(
        r"\bmatches!\([^()]*(?:\([^()]*\)[^()]*)*,\s*(?:[\w:]+\(?|[|\s])*$", before
    ):
        return True
    if re.match(r"[)\s]*(?:=>|if\b|\|[\w:|()\s]*=>)", text[end:]):
        return not re.search(r"\bif\b", re.split(r",|=>", before)[-1])
    return bool(re.match(r"[)\s]*=(?!=)", text[end:]) and re.search(r"\blet\b[^=]*$", before))


def arm_pattern(text: str, at: int, start: int) -> str:
    """The pattern, without layout, of the innermost arm of a match around a place in a body that starts there."""
    depth = 0
    for mark in reversed([*re.finditer(r"[][(){}]|=>", text[start:at])]):
        if mark[0] == "=>" and depth == 0:
            return "".join(re.split(r"[,{};]|=>", text[start : start + mark.start()])[-1].split())
        depth = max(depth + (mark[0] in ")]}") - (mark[0] in "([{"), 0)
    return ""


def tried(
    refused: Iterable[str], taken: Iterable[str], found: Callable[[Code], Iterable[Spot]]
) -> tuple[int, list[str]]:
    """Tries a check itself on bodies that it has to refuse and to take: of how many it is right, and its mistakes."""
    is_refused = {body: any(True for _ in found(Code(TRIAL.replace("BODY", body)))) for body in (*refused, *taken)}
    wrong = [f"taken, though it is wrong: {body}" for body in refused if not is_refused[body]]
    wrong += [f"refused, though it is right: {body}" for body in taken if is_refused[body]]
    return len(is_refused) - len(wrong), wrong


def compared(name: str, spots: Iterable[tuple[str, Code, Spot]], right: int, wrong: list[str]) -> int:
    """Compares what a check finds with its list of places, and tells what differs; the exit status."""
    found: dict[str, int] = {}
    for path, code_of, (at, function) in spots:
        found.setdefault(f"{path} {code_of.place(function)}", code_of.text.count("\n", 0, at) + 1)
    listed = (TOP / ".ci" / f"{name}_places").read_text().splitlines()
    known = {line for line in listed if line and not line.startswith("#") and not line.endswith(" - -")}
    wrong += [f"line {line}: {place}" for place, line in sorted(found.items()) if place not in known]
    wrong += [f"no longer there: {place}" for place in sorted(known - found.keys())]
    print(*wrong, f"{name}: {right + len(known & found.keys())} passed, {len(wrong)} failed", sep="\n")
    return 1 if wrong else 0
