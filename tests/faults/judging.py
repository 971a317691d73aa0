"""What a run may have answered and left, when something was refused to it, stopped or failed.

Each function answers None if all is well, else a line that says what is wrong.
"""

import signal
from collections.abc import Sequence

from faults.program import Ran, damage, read_content
from faults.scenario import ANSWERS, CONTENTS, ENROLLED, answer

# The word of a 500, and the word on standard error if the program ends with no answer.
MEMORY = ("out_of_memory", "memory")
STORE = ("store", "store")

# What is told of a desk in which nobody is enrolled.
UNENROLLED = "no operator is enrolled, so each request is answered 403"


def told(output: bytes, answers: Sequence[bytes]) -> tuple[int, bytes]:
    """How many of the right answers an output begins with, and the bytes after them."""
    for count, right in enumerate(answers):
        if not output.startswith(right):
            return count, output
        output = output[len(right) :]
    return len(answers), output


def word_of(errors: str) -> str:
    """The line of the word with which a run failed, which is the last; why it failed may stand before."""
    return "".join(errors.splitlines(keepends=True)[-1:])


def wrong_whole(ran: Ran, answers: Sequence[bytes]) -> str | None:
    """A run that ends with status 0 has given every answer."""
    if ran.output != b"".join(answers):
        count, rest = told(ran.output, answers)
        return f"status 0, {count} of {len(answers)} right answers, then {rest[:200]!r}"
    return f"status 0, but it said {ran.errors!r}" if ran.errors else None


def wrong_failure(ran: Ran, answers: Sequence[bytes], words: tuple[str, str]) -> str | None:
    """A run that ends with status 4 has given right answers, and then one 500 or none, with its word. After all answers
    its files could not be closed, for whatever cause, which loses nothing."""
    broken, ended = words
    count, rest = told(ran.output, answers)
    word = word_of(ran.errors)
    if word == "uss_desk: store\n" and count == len(answers) and not rest:
        return None
    if word == "uss_desk: broken\n":
        right = rest == answer(500, f'{{"error":"{broken}"}}')
    elif word == f"uss_desk: {ended}\n":
        right = not rest and (count == 0 or ended == "memory")
    else:
        return f"it said {ran.errors!r}"
    return None if right else f"{ran.errors.strip()} after {count} right answers and {rest[:200]!r}"


def wrong_end(ran: Ran, answers: Sequence[bytes], words: tuple[str, str], was_refused: bool) -> str | None:
    """A run to which a fault was done, or none."""
    if ran.status == 0:
        return wrong_whole(ran, answers)
    if ran.status != 4:
        return f"status {ran.status}: {ran.errors[:200]!r}"
    if not was_refused:
        return f"it failed though nothing was refused: {ran.errors!r} after {ran.output[-200:]!r}"
    return wrong_failure(ran, answers, words)


def wrong_stop(ran: Ran, answers: Sequence[bytes]) -> str | None:
    """A run that was killed, or ended before it could be."""
    if ran.status != -signal.SIGKILL:
        return wrong_whole(ran, answers) if ran.status == 0 else f"status {ran.status}: {ran.errors[:200]!r}"
    count, rest = told(ran.output, answers)
    right = answers[count] if count < len(answers) else b""
    return None if right.startswith(rest) else f"killed after {count} right answers and {rest[:200]!r}"


def wrong_content(path: str, allowed: Sequence[bytes]) -> str | None:
    """A file that is opened again has one of the contents that are allowed, as a List of each operator tells them."""
    ran = read_content(path)
    if ran.status != 0 or ran.errors not in ("", f"uss_desk: {path}: {UNENROLLED}\n"):
        return f"opened again: status {ran.status}, {ran.errors!r}"
    if ran.output not in allowed:
        return f"opened again it has {ran.output.decode(errors='replace')!r}"
    return damage(path)


def contents_after(output: bytes, more: int) -> list[bytes]:
    """What the scenario may have left: what was answered; and one call more, if `more`.

    Before the first answer as many operators as you like may be enrolled.
    """
    count, _ = told(output, ANSWERS)
    first = ENROLLED + count if count else 0
    return CONTENTS[first : ENROLLED + count + 1 + more]


def first_of(*complaints: str | None) -> str | None:
    """The first complaint, or None."""
    return next((text for text in complaints if text), None)


def kind_of(ran: Ran) -> str:
    """How a run ended, in a word."""
    ends = {0: "whole", 4: word_of(ran.errors).strip().replace("uss_desk: ", "ended "), -signal.SIGKILL: "killed"}
    return ends.get(ran.status, "crashed")
