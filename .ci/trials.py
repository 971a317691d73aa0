"""Tries edits in a scratch clone: which clauses of which functions refuse them.

Several edits that each change the body of one function are tried in one check, since a function is proved over the
clauses of what it calls: what is open in a function is its own edit's doing. One that its own clause doesn't refuse in
such a round is tried alone, and so is one that changes anything else. A check proves the functions alone that the
edits' clauses name. If an edit that is alone comes to nothing there, the whole crate is checked with it.
"""

from __future__ import annotations

import os
import pathlib
import re
import shutil
import subprocess
import tempfile
from collections import Counter, defaultdict
from collections.abc import Iterable, Iterator
from dataclasses import dataclass, field

from edits import Edit, is_at, is_in_body, named, touched
from items import TOP, Index, Item

PROOF = re.compile(r"(?:note: )?(?:\./)?proofs/(\S+?)\.antt:\d+:\d+: error: (.*)")
SOURCE = re.compile(r"(?:note: )?(?:\./)?(src/\S+?\.rt):(\d+):\d+: .*\(`([^`]+)`\)")
FAULT = re.compile(r"(?:\./)?(src/\S+?\.rt):(\d+):\d+: error")
BEHIND = re.compile(r"declarations? that depends? on `([^`]+)`.*: (.*)$")
LOST_NAME = re.compile(r"has no field|is not in scope|has no `|was not admitted")
VERDICT = re.compile(r"^(?:logic=not-proved|only=\d+ proved=\d+)", re.MULTILINE)
GOAL_WORD = re.compile(r"[\w+-]+")
# How many edits are tried in one check at most: what it came to is known at its end only.
MOST = 40
RANGES = ("overflow_", "bounds", "slice_bounds", "nonzero_", "offset_bounds")


def label_of(goal: str) -> str:
    """The label of the clause that a goal is named after, or the word for what else is open."""
    goal = re.sub(r"-\d+$", "", goal)
    if "-requires" in goal:
        return "requires of " + goal.partition("-requires")[0].partition("-")[0]
    if goal == "returns" or goal.startswith("returns-"):
        return goal.rpartition("-clause-")[2] if "-clause-" in goal else "ensures"
    if goal.startswith("invariant_of"):
        return "invariant"
    if goal.startswith(RANGES):
        return "range"
    return "loop" if re.search(r"-(init|preserved|smaller)(-|$)", goal) else "lemma"


@dataclass
class Told:
    """What a check tells: the labels of what is open by function, the functions in which errors of Rust are, whether
    all is proved, and whether it came to a verdict."""

    open: defaultdict[str, set[str]] = field(default_factory=lambda: defaultdict(set))
    faulty: set[str] = field(default_factory=set)
    is_proved: bool = False
    is_verdict: bool = False
    words: str = ""

    def unread(self) -> list[str]:
        """The first lines of a check that came to no verdict and name an error."""
        lines = [line for line in self.words.split("\n") if re.search(r"\berror\b", line)]
        return [] if self.is_verdict else lines[:3]


class Room:
    """A scratch clone of HEAD in which a crate's edits are tried over what checks have kept here."""

    def __init__(self, crate: str, below: Iterable[str], index: Index) -> None:
        self.crate, self.index = crate, index
        self.room = pathlib.Path(tempfile.mkdtemp(prefix="audit-"))
        self.folder = self.room / "clone" / "crates" / crate
        subprocess.run(["git", "clone", "-q", str(TOP), str(self.room / "clone")], check=True)
        for one in below:
            kept = TOP / "crates" / one / "out"
            if kept.is_dir():
                link_tree(kept, self.room / "clone" / "crates" / one / "out")

    def close(self) -> None:
        """Removes the clone."""
        shutil.rmtree(self.room)

    def prove(self, edits: list[Edit]) -> None:
        """Has the functions that the edits' clauses name proved as they stand, and keeps what was found.

        A library that was built here has that done, and `rt lib` says so at once."""
        library = self.folder / "out" / "rlib" / f"{self.crate}.rlib"
        told = self.run("lib") if library.exists() else self.check(edits)
        if not told.is_proved:
            raise SystemExit(f"audit: {self.crate} is not proved as it stands:\n{told.words[-2000:]}")

    def check(self, edits: Iterable[Edit] = ()) -> Told:
        """A check of the crate, as it stands in the clone, or of the functions alone that the edits' clauses name."""
        names = dict.fromkeys(name for edit in edits for name in only_names(edit, self.index))
        return self.run("check", *(word for name in names for word in ("--only", name)))

    def run(self, command: str, *flags: str) -> Told:
        """What a command of the kit tells of the crate."""
        words = ["rt", command, "--jobs", os.environ.get("RT_JOBS", "2"), *flags]
        ran = subprocess.run(
            words, cwd=self.folder, stdin=subprocess.DEVNULL, capture_output=True, text=True, errors="replace"
        )
        said = ran.stdout + ran.stderr
        told = Told(is_proved=ran.returncode == 0, words=said)
        told.is_verdict = told.is_proved or bool(VERDICT.search(said))
        for line in said.split("\n"):
            self.hear(line, told)
        return told

    def hear(self, line: str, told: Told) -> None:
        """Notes what a line tells of an open goal, or of an error."""
        fault, source = FAULT.match(line), SOURCE.match(line)
        if fault:
            told.faulty.add(self.function_at(fault[1], int(fault[2])))
        if source:
            told.open[self.function_at(source[1], int(source[2]))].add(label_of(source[3]))
            return
        proof = PROOF.match(line)
        if proof is None:
            return
        function = self.function_of(proof[1])
        behind, goal = BEHIND.search(proof[2]), re.match(r"`([^`]+)`", proof[2])
        if behind:
            told.open[function].update(label_of(word) for word in GOAL_WORD.findall(behind[2]))
        elif LOST_NAME.search(proof[2]):
            told.open[function].add("name")
        elif "/" not in proof[1]:
            told.open[function].add("lemma")
        elif goal:
            told.open[function].add(label_of(goal[1]))

    def function_at(self, path: str, line: int) -> str:
        """The function that has this line of a file of src/."""
        source = self.index.sources[f"crates/{self.crate}/{path}"]
        place = sum(len(text) + 1 for text in source.text.split("\n")[: line - 1])
        rest = source.text[place:]
        item = self.index.at(source.path, place + len(rest) - len(rest.lstrip()))
        return item.place if item else source.module

    def function_of(self, path: str) -> str:
        """The function whose proof a file of proofs/ is, or the file's own name."""
        *folders, name, _ = ["", *path.split("/")]
        if not name:
            return path
        for item in self.index.by_name.get(name, ()):
            if item.source.crate == self.crate and item.kind == "fn" and is_folder_of(item, folders[1:]):
                return item.place
        return path

    def attempt(self, edits: list[Edit]) -> Told:
        """A check with these edits: of the functions that their clauses name, or of all if one edit passes there."""
        made = edits[0].texts(self.folder) if len(edits) == 1 else self.joined(edits)
        was = {path: (self.folder / path).read_text() for path in made}
        try:
            self.write(made)
            told = self.check(edits)
            return self.check() if len(edits) == 1 and told.is_proved else told
        finally:
            self.write(was)

    def write(self, texts: dict[str, str]) -> None:
        """Writes texts of files of the crate."""
        for path, text in texts.items():
            (self.folder / path).write_text(text)

    def joined(self, edits: list[Edit]) -> dict[str, str]:
        """The texts of the files that edits of different functions change, with each function as its edit leaves it."""
        parts: defaultdict[str, list[tuple[int, int, str]]] = defaultdict(list)
        for edit in edits:
            item = touched(edit, self.index)[0]
            for path, text in edit.texts(self.folder).items():
                more = len(text) - len(item.source.text)
                parts[path].append((item.start, item.end, text[item.start : item.end + more]))
        return {path: spliced((self.folder / path).read_text(), those) for path, those in parts.items()}


def spliced(text: str, parts: list[tuple[int, int, str]]) -> str:
    """A text with other parts between these places."""
    for start, end, part in sorted(parts, reverse=True):
        text = text[:start] + part + text[end:]
    return text


def is_folder_of(item: Item, folders: list[str]) -> bool:
    """Whether a function's proofs stand in these folders: its module's, or its type's wherever that is."""
    if not item.owner:
        return folders == [part for part in item.source.module.split("::") if part]
    return bool(folders) and re.match(rf"{item.owner}(?![a-z0-9_])", folders[-1]) is not None


def link_tree(folder: pathlib.Path, to: pathlib.Path) -> None:
    """A copy of a folder of kept work; what was proved is linked, as a check replaces such a file and changes none."""

    def copy(one: str, other: str) -> object:
        if not one.endswith(".oantt"):
            return shutil.copy2(one, other)
        os.link(one, other)
        return other

    shutil.copytree(folder, to, symlinks=True, copy_function=copy)


def only_names(edit: Edit, index: Index) -> list[str]:
    """What `rt check --only` takes for the functions that the edit's clause names: their paths, in which a trait's name
    stands behind the type's, and behind that the trait's own type; nothing if there are none, and all is checked."""
    return [path_in_kit(item, index) for item in named(edit, index)]


def module_in_kit(item: Item, index: Index) -> str:
    """The module of a function as the kit has it: that of the type, of a method without a trait."""
    same = [one for one in index.by_name[item.owner] if one.name == item.owner and one.kind in ("struct", "enum")]
    types = [one for one in same if one.source.crate == item.source.crate and not item.trait]
    return types[0].source.module if types else item.source.module


def path_in_kit(item: Item, index: Index) -> str:
    """A function's path as the kit has it, as `serving::ServeFaultFromAllocError::from`."""
    owner = owner_of_trait(item) if item.trait else owner_with_types(item)
    module = item.source.module if "+" in owner else module_in_kit(item, index)
    return "::".join(part for part in (module, owner, item.name) if part)


def owner_of_trait(item: Item) -> str:
    """The name of an `impl` of a trait; the words of a path run together, as in `OpenFaultFromSqliteError`."""
    of = re.search(rf"\b{item.trait}<((?:\w+::)*\w+)", item.header)
    words = re.split("::|_", of[1]) if of else []
    return "".join([item.owner, item.trait, *(word[:1].upper() + word[1:] for word in words)])


def owner_with_types(item: Item) -> str:
    """The name of a type's own `impl`, with the types that it is for if not for all, as `SqliteStore+FileStore+D`."""
    before, _, behind = item.header.partition(f" {item.owner}<")
    words = re.findall(r"(?<!')\b\w+", behind.partition(" where ")[0])
    is_for_all = set(words) <= set(re.findall(r"\w+", before))
    return item.owner if is_for_all else "+".join([item.owner, *words])


def functions_of(edit: Edit, index: Index) -> list[Item]:
    """The items that an edit is the doing of: what it changes and what its clause names."""
    return list(dict.fromkeys([*touched(edit, index), *named(edit, index)]))


def is_single(edit: Edit, index: Index) -> bool:
    """Whether an edit changes the body of its own function alone, so that others may stand beside it."""
    changed = touched(edit, index)
    return len(changed) == 1 and changed[0] in named(edit, index) and is_in_body(edit, changed[0])


def next_round(left: list[Edit], index: Index) -> list[Edit]:
    """Edits of different functions, of those first that have the most edits left, so that the rounds are few."""
    count = Counter(edit.function for edit in left)
    chosen: list[Edit] = []
    taken: set[Item] = set()
    for edit in sorted(left, key=lambda edit: -count[edit.function]):
        own = set(functions_of(edit, index))
        if len(chosen) < MOST and not own & taken:
            chosen.append(edit)
            taken |= own
    return chosen


def settle(room: Room, trial: list[Edit]) -> dict[Edit, dict[str, set[str]]]:
    """What edits that stand side by side are refused by: of several, those that their own clauses refuse.

    If they can't be read side by side, those in whose functions the errors are stand aside, or else each half is tried.
    """
    told = room.attempt(trial)
    if len(trial) == 1:
        print(*told.unread(), sep="\n", end="\n" if told.unread() else "", flush=True)
        return {trial[0]: dict(told.open) if told.is_verdict and not told.is_proved else {}}
    if told.is_verdict:
        refused = {edit: told.open.get(edit.function, set()) for edit in trial}
        return {edit: {edit.function: labels} for edit, labels in refused.items() if is_at(edit, labels, room.index)}
    well = [edit for edit in trial if edit.function not in told.faulty]
    parts = [well] if 0 < len(well) < len(trial) else [trial[0::2], trial[1::2]]
    return {edit: labels for part in parts for edit, labels in settle(room, part).items()}


def rounds(room: Room, edits: list[Edit]) -> Iterator[dict[Edit, dict[str, set[str]]]]:
    """What each edit is refused by, the labels by function, a round at a time; nothing where it is not refused.

    What a round of several doesn't settle is tried alone at the end, as is what may not stand beside others.
    """
    left = [edit for edit in edits if is_single(edit, room.index)]
    alone = [edit for edit in edits if edit not in left]
    while left:
        trial = next_round(left, room.index)
        found = settle(room, trial)
        left = [edit for edit in left if edit not in trial]
        alone += [edit for edit in trial if edit not in found]
        yield found
    for edit in alone:
        yield settle(room, [edit])
