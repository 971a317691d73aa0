"""What an administrator reads and types: pages, completions, error codes, against the program and the proofs."""

from __future__ import annotations

import pathlib
import re
import sys

import pytest
from harness.places import CRATES, TOP
from harness.program import PROGRAM
from harness.rows import Rows
from package.commands import run
from package.conftest import Debs

sys.path.insert(0, str(TOP / "packaging"))

from completions import options_of  # noqa: E402  (the path is set above)
from documents import lines_of_the_program, words_and_statuses  # noqa: E402

pytestmark = pytest.mark.alone

EXITS = CRATES / "desk_cli" / "specs" / "Exits.antt"
Words = set[tuple[str, int]]
"""Words of failures, each with its status."""
# A line's words as bash sees them, and what its completion offers.
BASH = """
. {file}
COMP_WORDS=(uss_desk {words})
COMP_CWORD=$((${{#COMP_WORDS[@]}} - 1))
_uss_desk
printf '%s\\n' "${{COMPREPLY[@]}}"
"""
# The same for zsh, whose own functions only tell what they are given.
ZSH = """
compadd() {{ print -l -- ${{@:#--}} }}
_arguments() {{ print -l -- ${{@%%=:*}} }}
words=(uss_desk {words}) CURRENT=${{#words}}
. {file}
"""


@pytest.mark.proved
@pytest.mark.root
@pytest.mark.parametrize("package", ["desk", "clients"])
def test_pages(rows: Rows, package: str, request: pytest.FixtureRequest) -> None:
    """Each command has a page that man reads without a warning."""
    folder: pathlib.Path = request.getfixturevalue(package)
    for command in sorted((folder / "usr/bin").iterdir()):
        page = folder / f"usr/share/man/man1/{command.name}.1.gz"
        words = ["man", "--warnings", "--local-file", "--encoding=UTF-8", "-Tutf8", "-Z", str(page)]
        told = run(words) if page.is_file() else ""
        warnings = [line for line in told.splitlines() if "warning" in line or line.startswith("status ")]
        rows.equal(f"the page of {command.name}", (True, []), (page.is_file(), warnings))


def words_of_page(page: pathlib.Path) -> Words:
    """Each word of a failure with its status, as uss_desk(1) is read."""
    quiet = {"MANWIDTH": "200", "LC_ALL": "C.UTF-8", "PATH": "/usr/bin:/bin", "MANPAGER": "cat"}
    part = run(["man", "--local-file", page], env=quiet).partition("DIAGNOSTICS")[2].partition("FILES")[0]
    found = re.findall(r"^ {7}([a-z_, ]+) \((\d)\)$", part, re.MULTILINE)
    return {(word, int(status)) for words, status in found if words[:6] != "a text" for word in words.split(", ")}


def words_of_proofs() -> Words:
    """Each word of a failure with its status, as the proofs have them."""
    text = EXITS.read_text()
    statuses = dict(re.findall(r"^failure_status \(?failure\.(\w+)(?: fault\))? = (\d)", text, re.MULTILINE))
    named = re.findall(r'^failure_word failure\.(\w+) = codes "(\w+)"', text, re.MULTILINE)
    for kind, name in (("token", "Token"), ("rect", "Rect")):
        words = re.findall(rf'^{kind}_word {kind}\.\w+ = codes "(\w+)"', text, re.MULTILINE)
        named += [(name, word) for word in words]
    return {(word, int(statuses[name])) for name, word in named}


@pytest.mark.proved
@pytest.mark.root
def test_words_of_the_page(desk: pathlib.Path) -> None:
    """uss_desk(1) has each word with its status."""
    assert words_of_page(desk / "usr/share/man/man1/uss_desk.1.gz") == words_of_proofs()


@pytest.mark.quick
def test_words_of_troubleshooting() -> None:
    """So has docs/troubleshooting.md."""
    assert words_and_statuses(TOP) == words_of_proofs()


LINES = [(line, words) for line, words, _ in lines_of_the_program(TOP)]
NAMES = [line for line, _ in LINES]


def told_by_program(line: str) -> set[str]:
    """The options that the program's own help tells of a line."""
    return set(re.findall(r"(?<![\w-])--[a-z-]+", run([PROGRAM, line, "--help"])))


@pytest.mark.proved
@pytest.mark.root
def test_lines_of_rules(debs: Debs) -> None:
    """docs/api.md has the lines that the program's own help tells."""
    commands = run([PROGRAM, "--help"]).partition("Commands:")[2].partition("Options:")[0]
    assert sorted(set(re.findall(r"^  ([a-z]+)", commands, re.MULTILINE)) - {"help"}) == sorted(NAMES)


@pytest.mark.proved
@pytest.mark.root
@pytest.mark.parametrize("line, words", LINES, ids=NAMES)
def test_options_of_rules(debs: Debs, line: str, words: list[str]) -> None:
    """docs/api.md has the options that the program's own help tells."""
    assert {name for name, _ in options_of(words)} == told_by_program(line) - {"--help"}


SHELLS = {
    "bash": (["bash", "--norc", "-c"], BASH, "usr/share/bash-completion/completions/uss_desk"),
    "zsh": (["zsh", "-f", "-c"], ZSH, "usr/share/zsh/vendor-completions/_uss_desk"),
}


def offered(shell: str, desk: pathlib.Path, words: str) -> list[str]:
    """What a shell's completion offers after these words."""
    command, script, file = SHELLS[shell]
    return run([*command, script.format(file=desk / file, words=words)]).split()


@pytest.mark.proved
@pytest.mark.root
@pytest.mark.parametrize("shell", SHELLS)
def test_completed_lines(desk: pathlib.Path, shell: str) -> None:
    """Each line is offered."""
    assert sorted(offered(shell, desk, "''")) == sorted([*NAMES, "--help", "--version"])


@pytest.mark.proved
@pytest.mark.root
@pytest.mark.parametrize("line", NAMES)
@pytest.mark.parametrize("shell", SHELLS)
def test_completed_options(desk: pathlib.Path, shell: str, line: str) -> None:
    """Each option of a line is offered."""
    assert set(offered(shell, desk, f"{line} --")) == told_by_program(line)
