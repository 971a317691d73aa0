"""Tables of the documents, which pages and completions are made of."""
import pathlib
import re


def rows_of(document: pathlib.Path, heading: list[str]) -> list[list[str]]:
    """The rows of the table whose first line has these headings, each a list of its cells' texts."""
    lines = document.read_text().splitlines()
    first = next(at for at, line in enumerate(lines) if cells_of(line) == heading)
    rows = []
    for line in lines[first + 2 :]:
        if not line.startswith("|"):
            break
        rows.append(cells_of(line))
    return rows


def cells_of(line: str) -> list[str]:
    return [cell.strip() for cell in line.strip().strip("|").split(" |")] if line.startswith("|") else []


def codes_in(cell: str) -> list[str]:
    """The texts between backquotes."""
    return re.findall(r"`([^`]*)`", cell)


def plain(text: str) -> str:
    """A text without links; what is between backquotes keeps them."""
    return re.sub(r"\[([^\]]*)\]\([^)\s]*\)", r"\1", text)


def lines_of_the_program(top: pathlib.Path) -> list[tuple[str, list[str], str]]:
    """The lines that the program takes, of the API's table: each with its words, and what they are.

    A word is a text as `--at SECOND`, `[--svg]` or `NAME`, in brackets if it may be left out.
    """
    rows = rows_of(top / "docs" / "api.md", ["command", "arguments", "meaning"])
    return [(codes_in(line)[0], codes_in(words), plain(what)) for line, words, what in rows]


def failures(top: pathlib.Path) -> list[tuple[str, int, str, str]]:
    """The rows of the table of error codes: the codes of a row, its status, what happened, what to do."""
    rows = rows_of(top / "docs" / "troubleshooting.md", ["error code", "status", "what happened", "what to do"])
    return [(word, int(status), happened, to_do) for word, status, happened, to_do in rows]


def words_and_statuses(top: pathlib.Path) -> set[tuple[str, int]]:
    """Each error code of that table with its status; the texts of clap have no code."""
    return {
        (word, status)
        for cell, status, _, _ in failures(top)
        if not cell.startswith("a text")
        for word in codes_in(cell)
    }
