"""What the refusal of an edit rests on, and a sum of it.

It rests on the functions that the edit changes and the one that refuses it, whole and with their own files of proofs/;
on the faces of what these call and name, and on all that these name in turn; on the edit and on the kit. A body that
keeps its clauses is no part of what rests on them, nor is a lemma: what is proved says nothing that the definitions
don't say.
"""

from __future__ import annotations

import hashlib
import re
from collections.abc import Iterable, Iterator

from items import TOP, WORD, Index, Item, Source, stands, without_layout

TYPES = ("struct", "enum", "type", "union")


def named_by_paths(source: Source, path: str) -> Iterator[str]:
    """The names in a path that may be those of types, as `Change` in `declared.change.Change.TheVariants`."""
    yield from (word for word in re.findall(r"\w+", path) if word[0].isupper())


class Rests:
    """The items on which others rest."""

    def __init__(self, index: Index) -> None:
        self.index = index
        self.kept: dict[tuple[int, bool], tuple[set[Item], str]] = {}
        self.below = {crate: index.below(crate) for crate in stands()}
        self.types = {item.name for item in index.items if item.kind in TYPES}

    def find(self, name: str, crates: frozenset[str]) -> list[Item]:
        """The items of this name in these crates."""
        return [item for item in self.index.by_name.get(name, ()) if item.source.crate in crates]

    def by_path(self, source: Source, path: str, name: str) -> Iterator[Item]:
        """The items that a name stands for which was imported from this path."""
        first = next((word for word in re.findall(r"\w+", path) if word != "Rattle"), "")
        crates = self.below.get(first) or self.below[source.crate]
        for one in (name, *named_by_paths(source, path)):
            yield from self.find(one, crates)

    def plain(self, source: Source, name: str, used: set[str]) -> Iterator[Item]:
        """What a name stands for that no path precedes."""
        if name in source.names:
            yield from (item for item in self.index.by_name[name] if item.source is source)
        if name in source.imports:
            path, _, first = source.imports[name].rpartition(" ")
            used.add(f"{name} {path} {first}")
            yield from self.by_path(source, path, re.split(r"::|\.", first)[-1])
        elif any(one.startswith("*") for one in source.imports):
            yield from self.find(name, self.below[source.crate])

    def dotted(self, source: Source, before: str, name: str, is_call: bool, used: set[str]) -> Iterator[Item]:
        """What a name stands for behind a dot: of a module that is imported, or a method."""
        if before in source.aliases:
            used.add(f"{before} {source.aliases[before]}")
            yield from self.by_path(source, source.aliases[before], name)
        elif before[:1].isupper():
            yield from self.find(name, self.below[source.crate])
        elif is_call:
            yield from (item for item in self.find(name, self.below[source.crate]) if item.owner)

    def named(self, source: Source, bare: str, used: set[str]) -> Iterator[Item]:
        """The items that a text of this file names."""
        before, end = "", 0
        for found in WORD.finditer(bare):
            between, rest = bare[end : found.start()].lstrip(), bare[found.end() : found.end() + 4].lstrip()
            if between.endswith("::"):
                yield from self.find(found[0], self.below[source.crate])
            elif between.endswith(".") and not between.endswith(".."):
                last = before if between == "." else ""
                yield from self.dotted(source, last, found[0], rest.startswith(("(", "::")), used)
            else:
                yield from self.plain(source, found[0], used)
            before, end = found[0], found.end()
        for name in sorted(name for name in (*source.names, *source.imports) if "◌" in name):
            if name.strip("◌") in bare:
                yield from self.plain(source, name, used)

    def steps(self, item: Item, whole: bool) -> tuple[set[Item], str]:
        """The items that an item names, or its face, and a sum of its text and of what its imports say of them."""
        kept = self.kept.get((id(item), whole))
        if kept is None:
            text, bare = item.seen(whole)
            used: set[str] = set()
            found = set(self.named(item.source, bare, used)) - {item}
            if item.trait and item.kind == "fn":
                found |= {one for one in self.index.traits[item.trait, item.name] if one.owner == item.trait}
            said = "\0".join([item.key, without_layout(text), *sorted(used)])
            kept = self.kept[id(item), whole] = found, hashlib.sha256(said.encode()).hexdigest()
        return kept

    def impls_of(self, item: Item, crates: frozenset[str]) -> Iterator[Item]:
        """What is said for a type by the impls of traits, and by those for any type of a trait."""
        if item.kind not in (*TYPES, "trait"):
            return
        for one in self.index.impls[item.name] if item.kind in TYPES else self.index.blanket(item.name, self.types):
            if one.trait and one.source.crate in crates:
                yield one
                yield from (it for it in self.index.by_file[one.source.path] if is_member(it, one))

    def closure(self, crate: str, roots: Iterable[Item], faces: Iterable[Item]) -> dict[Item, bool]:
        """All that the roots and the faces rest on; the value says whether the whole of an item counts."""
        crates, found = self.below[crate], {**dict.fromkeys(faces, False), **dict.fromkeys(roots, True)}
        left = list(found)
        while left:
            item = left.pop()
            for one in [*self.steps(item, found[item])[0], *self.impls_of(item, crates)]:
                if one not in found:
                    found[one] = False
                    left.append(one)
        return found

    def sum_of(self, crate: str, roots: list[Item], faces: list[Item], more: Iterable[str]) -> str:
        """The sum of what the roots and the faces rest on, and of these texts."""
        closure = self.closure(crate, roots, faces)
        sums = sorted(self.steps(item, whole)[1] for item, whole in closure.items())
        return hashlib.sha256("\0".join([*sums, *more]).encode()).hexdigest()


def is_member(item: Item, block: Item) -> bool:
    """Whether an item is a function of an impl."""
    return item.kind == "fn" and item.owner == block.name and item.trait == block.trait


def proof_texts(item: Item) -> Iterator[str]:
    """The files of proofs/ that are a function's own, each with its name; a method's stand below its type's module."""
    proofs = TOP / "crates" / item.source.crate / "proofs"
    folder = "/".join(["**", f"{item.owner}*"] if item.owner else filter(None, item.source.module.split("::")))
    for path in sorted(proofs.glob(f"{folder}/{item.name}/*.antt" if folder else f"{item.name}/*.antt")):
        yield f"{path.relative_to(TOP)} {without_layout(path.read_text())}"
