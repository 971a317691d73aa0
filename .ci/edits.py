"""The edits of must-fail/ and more-edits/: what each changes, and which clause of which function must refuse it.

An edit is a file of lines `file: PATH`, `old: TEXT`, `new: TEXT`, which `rt` reads, and lines of comments that begin
with `#`. One of these is `# clause: FUNCTION (LABEL)`. FUNCTION is its path in the crate, as `tokens::Token::as_str`.
LABEL is the label of a clause of it, or `ensures` where this has none, or `invariant` of the type that it makes, or
`requires of CALLEE`, or another word of OTHER.
"""

from __future__ import annotations

import pathlib
import re
from dataclasses import dataclass

from items import TOP, Index, Item, end_of_block, without_texts

FOLDERS = ("must-fail", "more-edits")
SAID = re.compile(r"# clause: (\S+) \(([^()]+)\)$", re.MULTILINE)
OTHER = {
    "ensures": "a clause of the function that has no label, or all of them in one",
    "invariant": "the invariant of the type of a value that the function makes or changes",
    "range": "that a number fits its type, or an index its list",
    "loop": "the invariant of a loop, which says little of the contract",
    "lemma": "a lemma of proofs/, which says little of the contract",
    "name": "a name in the function's proof, which says nothing of the contract",
}


@dataclass(frozen=True)
class Pair:
    """One line for one line of a file."""

    path: str
    old: str
    new: str


@dataclass(frozen=True)
class Edit:
    """An edit: its crate, its name, its pairs, and the function and the label of the clause that must refuse it."""

    crate: str
    path: pathlib.Path
    pairs: tuple[Pair, ...]
    function: str
    label: str

    @property
    def name(self) -> str:
        """The edit's name among all crates'."""
        return f"{self.crate}/{self.path.stem}"

    @property
    def clause(self) -> str:
        """The clause as the edit's line names it."""
        return f"{self.function} ({self.label})"

    def texts(self, crate: pathlib.Path) -> dict[str, str]:
        """The texts of the files that the edit changes, as it leaves them; each old text has to stand once."""
        made: dict[str, str] = {}
        for pair in self.pairs:
            text = made.get(pair.path) or (crate / pair.path).read_text()
            if text.count(pair.old) != 1:
                raise ValueError(f"{self.name}: an old text stands {text.count(pair.old)} times in {pair.path}")
            made[pair.path] = text.replace(pair.old, pair.new)
        return made

    def fits(self) -> bool:
        """Whether it can be put in."""
        try:
            return bool(self.texts(TOP / "crates" / self.crate))
        except (OSError, ValueError):
            return False


def read_edit(path: pathlib.Path) -> Edit:
    """The edit of a file."""
    file, old, pairs = "", "", []
    text = path.read_text()
    for line in text.split("\n"):
        if line.startswith("file: "):
            file = line.removeprefix("file: ").strip()
        elif line.startswith("old: "):
            old = line.removeprefix("old: ")
        elif line.startswith("new:"):
            pairs.append(Pair(file, old, line.removeprefix("new:").removeprefix(" ")))
    said = SAID.search(text)
    function, label = (said[1], said[2]) if said else ("", "")
    return Edit(path.relative_to(TOP).parts[1], path, tuple(pairs), function, label)


def edits_of(crate: str) -> list[Edit]:
    """The edits of a crate, by their names."""
    folder = TOP / "crates" / crate
    paths = [path for part in FOLDERS for path in folder.glob(f"{part}/*.edit")]
    return sorted(map(read_edit, paths), key=lambda edit: edit.name)


def labels_of(item: Item) -> set[str]:
    """The labels of a function's clauses, `ensures` for one that has none."""
    return {clause.label or clause.kind for clause in item.contract}


def touched(edit: Edit, index: Index) -> list[Item]:
    """The items that an edit changes; all of a file where it changes what belongs to none."""
    found: dict[Item, None] = {}
    for pair in edit.pairs:
        path = f"crates/{edit.crate}/{pair.path}"
        source = index.sources.get(path)
        place = source.text.find(pair.old) if source else -1
        if place < 0:
            continue
        begin = place + len(pair.old) - len(pair.old.lstrip())
        item = index.at(path, begin)
        found.update(dict.fromkeys([item] if item else index.by_file[path]))
    return list(found)


def functions_at(crate: str, place: str, index: Index) -> list[Item]:
    """The functions of a crate that have this path."""
    found = index.by_name.get(place.rpartition("::")[2], ())
    return [item for item in found if item.source.crate == crate and item.place == place and item.kind == "fn"]


def named(edit: Edit, index: Index) -> list[Item]:
    """The functions that the edit's clause names."""
    return functions_at(edit.crate, edit.function, index)


def is_at(edit: Edit, labels: set[str], index: Index) -> bool:
    """Whether the clause that an edit's line names is among what is open; a goal may be all clauses in one."""
    clauses = {label for item in named(edit, index) for label in labels_of(item)}
    return edit.label in labels or "ensures" in labels and edit.label in clauses


def is_in_body(edit: Edit, item: Item) -> bool:
    """Whether all that an edit changes is in a function's body, which ends as it did, and which no caller sees."""
    source = item.source
    if item.shows_body or {f"crates/{edit.crate}/{pair.path}" for pair in edit.pairs} != {source.path}:
        return False
    body = item.start + item.split
    (text,) = edit.texts(TOP / "crates" / edit.crate).values()
    before, behind = source.text[:body], source.text[body + end_of_block(item.bare[item.split :], 0) :]
    ends = body + end_of_block(without_texts(text[body:]), 0)
    return text[:body] == before and text[ends:] == behind


def lemmas_at(crate: str, place: str) -> pathlib.Path:
    """The file of lemmas of a crate that has this name, if there is one."""
    return TOP / "crates" / crate / "proofs" / f"{place}.antt"


def unsaid(edit: Edit, index: Index) -> str:
    """Why the edit's line of a clause says nothing, or nothing."""
    if not edit.function:
        return "no line '# clause: FUNCTION (LABEL)' says what must refuse it"
    functions = named(edit, index)
    if not functions and not (edit.label == "lemma" and lemmas_at(edit.crate, edit.function).is_file()):
        return f"{edit.function} is no function of {edit.crate}"
    labels = {label for item in functions for label in labels_of(item)}
    if edit.label in labels or edit.label in OTHER or edit.label.startswith("requires of "):
        return ""
    if any(item.trait or "trait " in item.header for item in functions):
        return ""
    return f"{edit.function} has no clause {edit.label}"
