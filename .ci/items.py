"""The items of the crates' sources, and which of them each names.

An item is a function, a type, an `impl`, a trait, a constant or a macro of src/, or a definition of specs/. Of a
function callers see its face (the signature and the clauses); what stands in its body is its own. A function without
an `ensures` shows its body too, unless a trait has its clauses.

A name is followed to each item that it may mean: by the imports of its file, and where these don't tell, as at a
method, to every item of that name.
"""

from __future__ import annotations

import pathlib
import re
import subprocess
from collections import defaultdict
from collections.abc import Iterable, Iterator
from dataclasses import dataclass, field
from functools import cache, cached_property

TOP = pathlib.Path(__file__).resolve().parent.parent
PARTS = ("src", "specs")

COMMENT_OR_TEXT = re.compile(
    r"//[^\n]*|/\*.*?\*/|b?r(#*)\".*?\"\1|b?\"(?:\\.|[^\"\\])*\"|b?'(?:\\[^']*|[^\\'\n])'", re.DOTALL
)
ANTT_COMMENT = re.compile(r"(?:^|(?<=\s))-- [^\n]*|(?:^|(?<=\s))--$", re.MULTILINE)
WORD = re.compile(r"[^\W\d][\w']*(?:-[\w']+)*")
RUST_START = re.compile(
    r"(?:#!?\[|pub\b|fn\b|struct\b|enum\b|impl\b|const\b|static\b|type\b|trait\b|mod\b|use\b|ghost\b|unsafe\b"
    r"|extern\b|[a-z_]+!)"
)
CLAUSE = re.compile(r"\b(?:ensures|requires)\b")
BRACKET = re.compile(r"[][(){}]")
IMPORT = re.compile(r"\buse\s+([^;{]*?)(?:::|\.)?(?:\{([^}]*)\}|(\*)|)(?:\s+as\s+(\w+))?\s*(?:;|$)", re.MULTILINE)
# What isn't followed, and so may not stand in a source: imports within imports, and names that are opened.
UNFOLLOWED = re.compile(r"\buse\s[^;{}]*\{[^;}]*\{|^ *open ", re.MULTILINE)
# An import of names of several modules, as `use A.{B.x, C.y}`.
NESTED = re.compile(
    r"^([ \t]*(?:pub )?(?:ghost )?use )(Rattle\.[\w.]+)\.\{([^}\n]*[A-Za-z]\w*\.[^}\n]*)\}(;?)[ \t]*$", re.MULTILINE
)
ANTT_NAME = re.compile(r"(?:(?:abbrev|unfoldable|pub|record|data|infix[lr]?\s+\d+)\s+)*([^\s:({]+)")
BEFORE_TYPES = ("struct", "enum", "type", "trait", "const", "static", "union")


@cache
def stands() -> dict[str, list[str]]:
    """Each crate of crates.txt, and the crates of this repository that it stands on."""
    lines = (TOP / "crates.txt").read_text().splitlines()
    found = {line[1]: line[2].split() for line in (re.match(r"(\w+)[^:#]*:(.*)", line) for line in lines) if line}
    return {name: [low for low in lows if low in found] for name, lows in found.items()}


def tracked(*patterns: str) -> list[pathlib.Path]:
    """The files that git tracks or would track."""
    words = ["git", "ls-files", "-z", "--cached", "--others", "--exclude-standard", "--", *patterns]
    listed = subprocess.run(words, cwd=TOP, capture_output=True, text=True, check=True).stdout.split("\0")
    return [TOP / name for name in sorted(set(listed)) if name and (TOP / name).is_file()]


def blank(found: re.Match[str]) -> str:
    """As many columns and lines without what stands there."""
    return re.sub(r"[^\n]", " ", found[0])


def without_texts(text: str) -> str:
    """A text of Rust without comments and literals, in as many columns."""
    return COMMENT_OR_TEXT.sub(blank, text)


def without_layout(text: str) -> str:
    """A text without lines of comments and what the layout alone decides."""
    text = re.sub(r"^ *(//|-- ).*$", "", text, flags=re.MULTILINE)
    text = re.sub(r"\s+", " ", text)
    text = re.sub(r"(?<=[(\[{]) | (?=[)\]}])", "", text)
    return re.sub(r",(?=[)\]}])", "", text).strip()


def spread(text: str) -> str:
    """A text in which each import has names of one module: `use A.{B.x, C.y}` is `use A.B.{x}` and `use A.C.{y}`."""

    def one_each(found: re.Match[str]) -> str:
        by_module: defaultdict[str, list[str]] = defaultdict(list)
        for name in filter(None, map(str.strip, found[3].split(","))):
            last = re.sub(r"^(?:[A-Za-z]\w*\.)+", "", name)
            by_module[f"{found[2]}.{name.removesuffix(last)}".rstrip(".")].append(last)
        return "\n".join(f"{found[1]}{path}.{{{', '.join(names)}}}{found[4]}" for path, names in by_module.items())

    return NESTED.sub(one_each, text)


def end_of_block(bare: str, start: int) -> int:
    """Where the block ends that begins with the bracket at this place."""
    depth = 0
    for found in BRACKET.finditer(bare, start):
        depth += 1 if found[0] in "([{" else -1
        if depth == 0:
            return found.end()
    return len(bare)


def body_start(bare: str) -> int:
    """Where a function's body begins, behind its clauses; the end if it has none."""
    at = 0
    while True:
        brace = bare.find("{", at)
        if brace < 0:
            return len(bare)
        clause = CLAUSE.search(bare, at, brace)
        if clause is None:
            return brace
        at = end_of_block(bare, brace)


@dataclass
class Clause:
    """A clause of a contract: `requires` or `ensures`, its label, and its text."""

    kind: str
    label: str
    text: str


@dataclass
class Source:
    """A file of src/ or specs/: its text, what its imports say, and the crate that it belongs to."""

    crate: str
    path: str
    text: str
    bare: str
    imports: dict[str, str] = field(default_factory=dict)
    aliases: dict[str, str] = field(default_factory=dict)
    names: set[str] = field(default_factory=set)

    @property
    def module(self) -> str:
        """The file's module in the crate, as `opening::files`; nothing for the root."""
        parts = pathlib.PurePath(self.path).with_suffix("").parts[3:]
        if parts[-1] in ("lib", "main", "mod"):
            parts = parts[:-1]
        return "::".join(parts)


@dataclass(eq=False)
class Item:
    """An item: its kind, name, owner (the type or trait of a method) and trait (of an `impl` for a type)."""

    source: Source
    kind: str
    name: str
    start: int
    end: int
    owner: str = ""
    trait: str = ""
    header: str = ""

    def width(self) -> int:
        """How long the whole text is."""
        return self.end - self.start

    @property
    def key(self) -> str:
        """What tells the item from all others."""
        return f"{self.source.path} {self.kind} {self.trait} {self.place} {self.start if not self.name else ''}"

    @property
    def place(self) -> str:
        """The item's path in its crate, as `tokens::Token::as_str`."""
        return "::".join(part for part in (self.source.module, self.owner, self.name) if part)

    @cached_property
    def bare(self) -> str:
        """The text without comments and literals, in as many columns."""
        return self.source.bare[self.start : self.end]

    @cached_property
    def text(self) -> str:
        """The whole text."""
        return self.source.text[self.start : self.end]

    @cached_property
    def split(self) -> int:
        """Where the face of a function ends."""
        return body_start(self.bare) if self.kind == "fn" else len(self.bare)

    @cached_property
    def shows_body(self) -> bool:
        """Whether a caller sees the body too."""
        return self.kind == "fn" and not self.trait and not re.search(r"\bensures\b", self.bare[: self.split])

    @cached_property
    def contract(self) -> list[Clause]:
        """The clauses of a function."""
        face, at = self.bare[: self.split], 0
        found: list[Clause] = []
        while clause := CLAUSE.search(face, at):
            brace = face.index("{", clause.end())
            at = end_of_block(face, brace)
            found.append(Clause(clause[0], face[clause.end() : brace].strip(), self.text[clause.start() : at]))
        return found

    def seen(self, whole: bool) -> tuple[str, str]:
        """What is seen of the item, as it stands and without comments and literals: all of it, or its face."""
        end = len(self.bare) if whole or self.shows_body else self.split
        return f"{self.header}\n{self.text[:end]}", f"{self.header}\n{self.bare[:end]}"


def add_imports(source: Source) -> None:
    """Notes what each name that the file imports stands for."""
    if UNFOLLOWED.search(source.bare):
        raise ValueError(f"{source.path}: write an import for each path, and open none: .ci/audit follows no others")
    for path, listed, star, alias in IMPORT.findall(spread(source.bare)):
        path = re.sub(r"\s", "", path).rstrip(":.")
        if star:
            source.imports["*" + path] = path
        elif listed:
            for one in listed.split(","):
                first, _, last = one.strip().partition(" as ")
                if first:
                    source.imports[last.strip() or first.rpartition("::")[2]] = f"{path} {first}"
        else:
            last = re.split(r"::|\.", path)[-1]
            source.imports[alias or last] = f"{path} {last}"
            source.aliases[alias or last] = path


def starts(bare: str, column: int, begin: int, end: int) -> list[int]:
    """Where the items of a block begin: at lines in this column, each with the attributes before it."""
    found, is_open = [], False
    for line in re.finditer(r"^( *)(?=\S)(.*)$", bare[begin:end], re.MULTILINE):
        if len(line[1]) == column and RUST_START.match(line[2]):
            if not is_open:
                found.append(begin + line.start())
            is_open = line[2].startswith("#")
    return found


def rust_items(source: Source) -> Iterator[Item]:
    """The items of a file of src/, those of its blocks too."""
    yield from block_items(source, 0, 0, len(source.bare), "", "", "")


def block_items(
    source: Source, column: int, begin: int, end: int, owner: str, trait: str, header: str
) -> Iterator[Item]:
    """The items of a block: an impl's, a trait's, an inner module's or the whole file."""
    places = starts(source.bare, column, begin, end)
    for start, stop in zip(places, [*places[1:], end]):
        yield from items_at(source, column, start, stop, owner, trait, header)


def items_at(
    source: Source, column: int, start: int, stop: int, owner: str, trait: str, header: str
) -> Iterator[Item]:
    """The item that stands between two places, and those in it."""
    bare = source.bare[start:stop]
    said = re.sub(r"^\s*(#!?\[[^\n]*\]\s*)*", "", bare)
    said = re.sub(r"^pub(\([^)]*\))?\s+|^(const|unsafe|extern)\s+(?=fn|unsafe|impl)", "", said)
    said = re.sub(r"^(const|unsafe)\s+(?=fn)", "", said)
    word = re.match(r"(macro_rules!|\w+!?)\s*(\w*)", said)
    if word is None or word[1] in ("use", "mod") and "{" not in said.partition(";")[0]:
        return
    if word[1] == "fn":
        yield Item(source, "fn", word[2], start, stop, owner, trait, header)
    elif word[1] in BEFORE_TYPES and word[1] != "trait":
        yield Item(source, word[1], word[2], start, stop, owner, trait, header)
    elif word[1] in ("impl", "trait", "mod") and "{" in bare:
        yield from nested(source, column, start, stop, word[1], said)
    elif word[1] not in ("ghost", "use", "mod"):
        yield Item(source, "other", word[2], start, stop, owner, trait, header)


def nested(source: Source, column: int, start: int, stop: int, word: str, said: str) -> Iterator[Item]:
    """An impl, a trait or an inner module, and its items; what stands before its first function is its own."""
    brace = source.bare.index("{", start)
    header = re.sub(r"\s+", " ", source.text[start:brace]).strip()
    if word == "mod":
        yield from block_items(source, column + 4, brace + 1, stop, "", "", "")
        return
    owner, trait = owner_of(said.partition("{")[0])
    inside = list(block_items(source, column + 4, brace + 1, stop, owner, trait, header))
    functions = [item.start for item in inside if item.kind == "fn"]
    yield Item(source, word, owner, start, min(functions, default=stop), "", trait, "")
    yield from inside


def owner_of(said: str) -> tuple[str, str]:
    """The type and the trait of the head of an `impl`, or the name of a trait."""
    said = re.sub(r"^(impl|trait)\s*", "", re.sub(r"\s+", " ", said))
    said = drop_angles(said).partition(" where ")[0]
    first, _, last = said.partition(" for ")
    words = [re.findall(r"\w+", re.split(r"(?<!:):(?!:)", part)[0]) for part in (first, last)]
    if last:
        return (words[1][-1] if words[1] else ""), (words[0][-1] if words[0] else "")
    return (words[0][-1] if words[0] else ""), ""


def drop_angles(text: str) -> str:
    """A text without what stands between angles."""
    while True:
        less = re.sub(r"<[^<>]*>", " ", text.replace("->", "  "))
        if less == text:
            return text
        text = less


def antt_items(source: Source) -> Iterator[Item]:
    """The definitions of a file of specs/: each with the lines that belong to its name."""
    lines = [*re.finditer(r"^(?=[^\s)}\]])(?!use |pub use |pub mod |mod |where\b)(.*)$", source.bare, re.MULTILINE)]
    declared = {name for line in lines for name in [declared_name(line[1])] if name}
    groups: list[tuple[str, int]] = []
    for line in lines:
        first = ANTT_NAME.match(line[1])
        name = first[1] if first else ""
        if not groups or declared_name(line[1]) or name in declared and name != groups[-1][0]:
            groups.append((name, line.start()))
    ends = [*[start for _, start in groups[1:]], len(source.bare)]
    for (name, start), end in zip(groups, ends):
        yield Item(source, "definition", name, start, end)


def declared_name(line: str) -> str:
    """The name that a line declares, or nothing."""
    if line.startswith("module "):
        return "module"
    found = re.match(r"(?:(?:abbrev|unfoldable|pub|infix[lr]?\s+\d+|record|data)\s+)*(\S+)(?:\s*$|\s+[:({])", line)
    return found[1] if found and found[1] not in ("unfolding", "where") else ""


def inner_names(item: Item) -> set[str]:
    """Names that an item declares beside its own: variants, and what stands in an unnamed module or a data type."""
    if item.kind == "enum":
        return set(re.findall(r"^    ([A-Z]\w*)", item.bare, re.MULTILINE))
    if item.kind == "definition" and re.match(r"module |(pub )?data ", item.bare):
        return set(re.findall(r"^ +(?:abbrev |unfoldable |pub )*([^\s:({]+) *:", item.bare, re.MULTILINE))
    return set()


class Index:
    """All items of the crates, by their names."""

    def __init__(self, paths: Iterable[pathlib.Path]) -> None:
        self.items: list[Item] = []
        self.by_name: defaultdict[str, list[Item]] = defaultdict(list)
        self.by_file: defaultdict[str, list[Item]] = defaultdict(list)
        self.impls: defaultdict[str, list[Item]] = defaultdict(list)
        self.traits: defaultdict[tuple[str, str], list[Item]] = defaultdict(list)
        self.sources: dict[str, Source] = {}
        for path in paths:
            self.read(path)

    def read(self, path: pathlib.Path) -> None:
        """Reads a file of src/ or specs/."""
        text, place = path.read_text(), path.relative_to(TOP)
        is_rust = path.suffix == ".rt"
        bare = without_texts(text) if is_rust else ANTT_COMMENT.sub(blank, text)
        source = self.sources[str(place)] = Source(place.parts[1], str(place), text, bare)
        add_imports(source)
        for item in rust_items(source) if is_rust else antt_items(source):
            self.add(item)

    def add(self, item: Item) -> None:
        """Notes an item by its names."""
        self.items.append(item)
        self.by_file[item.source.path].append(item)
        for name in {item.name} | inner_names(item):
            if name and item.kind != "impl":
                self.by_name[name].append(item)
                item.source.names.add(name)
        if item.kind == "impl":
            self.impls[item.name].append(item)
        if item.kind == "fn" and item.owner:
            self.traits[item.trait or item.owner, item.name].append(item)

    def blanket(self, trait: str, types: set[str]) -> list[Item]:
        """The impls of a trait for no type of these crates alone."""
        return [item for item in self.items if item.kind == "impl" and item.trait == trait and item.name not in types]

    def below(self, crate: str) -> frozenset[str]:
        """The crate and all that it stands on."""
        found: set[str] = set()
        left = [crate]
        while left:
            one = left.pop()
            if one not in found:
                found.add(one)
                left += stands().get(one, [])
        return frozenset(found)

    def at(self, path: str, place: int) -> Item | None:
        """The item of a file that stands at this place."""
        found = [item for item in self.by_file[path] if item.start <= place < item.end]
        return min(found, key=Item.width) if found else None


@cache
def index() -> Index:
    """The items of src/ and specs/ of all crates."""
    return Index(path for path in tracked("crates/*.rt", "crates/*.antt") if path.relative_to(TOP).parts[2] in PARTS)
