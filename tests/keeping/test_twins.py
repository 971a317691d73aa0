"""Files that sqlite3 made of a desk's, or wrote to: sound to SQLite, refused by what serves a desk, and read by a twin:
what `check` and `copy` tell of them and make of them, and that they leave them alone, and nothing beside."""

from __future__ import annotations

import os
import pathlib
import re
import shutil

import pytest
from harness.places import DEPLOY
from harness.printed import page
from harness.program import DESK, PROGRAM, Ran, command
from harness.rows import Rows
from harness.sums import count_bad_pages
from keeping.given import made_file, run, shown

pytestmark = pytest.mark.alone

BY_SQLITE = {
    "backup": ".backup NEW",
    "vacuum_into": "VACUUM INTO 'NEW'",
    "vacuum": "VACUUM",
    "reindex": "REINDEX",
    "update": "UPDATE operator SET ceiling = 99 WHERE name = 'alfa'",
}
"""What sqlite3 is told, to make a new file or to write into the file."""
HELD = "schema 2, sums yes, 2 operators, 5 plans, 4 live"
COPIED = b"copied 2 operators, 5 plans\n"
ROW = b"alfa"
"""Bytes of rows: an operator's name."""
Stamp = dict[str, tuple[bytes, int]]


@pytest.fixture
def file(room: pathlib.Path) -> pathlib.Path:
    """A file of two operators and five plans, in a folder of its own."""
    folder = room / "desk"
    folder.mkdir()
    made_file(folder / "desk.db")
    return folder / "desk.db"


def line(*words: str | pathlib.Path) -> Ran:
    """What a line of the program comes to."""
    return command([*DESK, *map(str, words)])


def check(file: pathlib.Path) -> Ran:
    """What a look comes to."""
    return line("check", "--db", file)


def copy(file: pathlib.Path, new: pathlib.Path) -> Ran:
    """What the page's command for a copy comes to."""
    words = shown(page("how-files-get-damaged.md"), "uss_desk copy --db FILE --to NEW").split()[1:]
    return line(*({"FILE": file, "NEW": new}.get(word, word) for word in words))


def told(file: pathlib.Path, rows: str) -> str:
    """The line that tells of pages without their sums."""
    text = f"{count_bad_pages(file)} pages without their sums, as sqlite3 leaves them; the rows {rows}"
    return f"uss_desk: {file}: {text}\n"


def stamp(folder: pathlib.Path) -> Stamp:
    """Each file of a folder: its bytes and when it was written."""
    return {path.name: (path.read_bytes(), path.stat().st_mtime_ns) for path in folder.iterdir()}


def dump(file: pathlib.Path) -> str:
    """The rows of a file, as sqlite3 dumps them."""
    return run(["sqlite3", file, ".dump"])


def spoil(file: pathlib.Path, text: str) -> pathlib.Path:
    """Has sqlite3 make a new file of a file, or write into it; the one that lacks sums, alone in a folder."""
    made = file.with_name("new.db")
    run(["sqlite3", file, text.replace("NEW", str(made))])
    folder = file.parent.with_name("spoilt")
    folder.mkdir()
    return pathlib.Path(shutil.move(made if made.exists() else file, folder / "spoilt.db"))


def hurt(file: pathlib.Path) -> None:
    """Spoils a row and its page's sum: a name's first letter becomes one that no operator's name has."""
    data = file.read_bytes()
    file.write_bytes(data.replace(ROW, b"\x00lfa"))


@pytest.mark.quick_each(5)
@pytest.mark.parametrize("text", BY_SQLITE.values(), ids=BY_SQLITE)
def test_by_sqlite3(rows: Rows, file: pathlib.Path, text: str) -> None:
    """What sqlite3 leaves is told and copied, and stays as it is; the other lines refuse it."""
    spoilt = spoil(file, text)
    new, content = file.with_name("copy.db"), dump(spoilt)
    rows.equal("its own test", "ok\n", run(["sqlite3", spoilt, "PRAGMA integrity_check"]))
    rows.holds("pages lack their sums", count_bad_pages(spoilt) > 0)
    before = stamp(spoilt.parent)
    looked = check(spoilt)
    rows.equal("check tells it", (0, told(spoilt, "are a desk's")), (looked.status, looked.errors))
    rows.equal("and what it holds", HELD, ",".join(looked.output.decode().split(",")[:5]))
    rows.equal("it is left alone", before, stamp(spoilt.parent))
    rows.equal("copy tells it", (0, COPIED, told(spoilt, "alone were tested")), copy(spoilt, new))
    rows.equal("it is left alone by that too", before, stamp(spoilt.parent))
    rows.equal("the copy is the desk", (content, 0), (dump(new), count_bad_pages(new)))
    looked = check(new)
    rows.equal("and has sums", (0, ""), (looked.status, looked.errors))
    rows.equal("nothing is beside it", [], sorted(new.parent.glob("copy.db.*")))
    cause = f"{count_bad_pages(spoilt)} pages without their sums, as sqlite3 leaves them, or damaged"
    for words in (["enrol", "bravo", "1"], ["migrate"]):
        ran = line(words[0], "--db", spoilt, *words[1:])
        refused = (4, f"uss_desk: {spoilt}: {cause}\nuss_desk: store\n")
        rows.equal(f"{words[0]} refuses it", refused, (ran.status, ran.errors))


def test_no_desk(rows: Rows, file: pathlib.Path) -> None:
    """Rows that are no desk's, in a page without its sum: both lines refuse it, and leave it alone."""
    hurt(file)
    before, new = stamp(file.parent), file.parent.with_name("copy.db")
    rows.equal("check refuses it", (4, b"", told(file, "are no desk's") + "uss_desk: store\n"), check(file))
    refused = f"uss_desk: {file}: rows of no content in operator\nuss_desk: not_a_desk\n"
    rows.equal("copy refuses it", (4, b"", refused), copy(file, new))
    rows.equal("it is left alone", before, stamp(file.parent))
    rows.equal("nothing is made", [], sorted(new.parent.glob("copy.db*")))


def test_left_over(rows: Rows, file: pathlib.Path) -> None:
    """A twin that a killed line left is made anew."""
    spoilt = spoil(file, "VACUUM")
    twin = spoilt.with_name("spoilt.db.twin")
    shutil.copy(spoilt, twin)
    twin.with_name("spoilt.db.twin-wal").write_bytes(b"")
    looked = check(spoilt)
    rows.equal("check tells it", (0, told(spoilt, "are a desk's")), (looked.status, looked.errors))
    rows.equal("nothing is left", ["spoilt.db"], sorted(os.listdir(spoilt.parent)))


def test_in_the_way(rows: Rows, file: pathlib.Path) -> None:
    """What isn't a twin's is not taken for one: a folder at its name, and the file itself at the name of its twin."""
    spoilt = spoil(file, "VACUUM")
    twin = spoilt.with_name("spoilt.db.twin")
    twin.mkdir()
    refused = (4, b"", f"uss_desk: {twin}: it is there already\nuss_desk: store\n")
    rows.equal("a folder is in the way", refused, check(spoilt))
    twin.rmdir()
    spoilt = spoilt.rename(twin)
    before = stamp(spoilt.parent)
    rows.equal("it would be its own twin", refused, copy(spoilt, spoilt.with_name("spoilt.db")))
    rows.equal("it is left alone", before, stamp(spoilt.parent))


def test_in_the_way_of_a_copy(rows: Rows, file: pathlib.Path) -> None:
    """A new file that is there already, or would be written over the file that is copied."""
    spoilt = spoil(file, "VACUUM")
    spoilt = spoilt.rename(spoilt.with_name("new.db.part"))
    before, new = stamp(spoilt.parent), spoilt.with_name("new.db")
    taken = "it is there already\nuss_desk: store\n"
    rows.equal("it would be cleared", (4, b"", f"uss_desk: {spoilt}: {taken}"), copy(spoilt, new))
    rows.equal("over itself", (4, b"", f"uss_desk: {spoilt}: {taken}"), copy(spoilt, spoilt))
    rows.equal("it is left alone", before, stamp(spoilt.parent))


@pytest.mark.quick
def test_in_use(rows: Rows, file: pathlib.Path) -> None:
    """A file that sqlite3 is writing to is told as in use."""
    spoilt = spoil(file, "VACUUM")
    words = ["sqlite3", str(spoilt), "BEGIN EXCLUSIVE", f".shell {' '.join(DESK)} check --db {spoilt} 2>&1"]
    rows.has("it is in use", "in use by another program", command(words).output.decode())


def test_its_owners_alone(rows: Rows, file: pathlib.Path) -> None:
    """The new file is its owner's alone."""
    spoilt = spoil(file, "VACUUM")
    new = file.with_name("copy.db")
    copy(spoilt, new)
    rows.equal("its mode", 0o600, new.stat().st_mode & 0o777)


def nightly(file: pathlib.Path, folder: pathlib.Path) -> Ran:
    """What the command of the backup's unit comes to, over this file and into this folder."""
    unit = (DEPLOY / "uss_desk_backup.service").read_text()
    (text,) = re.findall(r"(?ms) -- sh -c '(.*?)'$", unit)
    for old, new in (("\\\n", " "), ("$$", "$"), ("%%", "%"), ("/var/backups/uss_desk", folder)):
        text = text.replace(old, str(new))
    text = text.replace("/usr/local/bin/uss_desk", str(PROGRAM)).replace("/var/lib/uss_desk/desk.db", str(file))
    return command(["sh", "-c", text])


@pytest.mark.quick
def test_nightly_backup(rows: Rows, file: pathlib.Path, room: pathlib.Path) -> None:
    """A backup of a database with a wrong checksum isn't the latest one, and the service fails."""
    folder = room / "backups"
    folder.mkdir()
    latest = folder / "latest.db"
    rows.equal("a good one", 0, nightly(file, folder).status)
    rows.equal("is the latest", dump(file), dump(latest))
    before = os.readlink(latest)
    os.rename(folder / before, folder / "1.db")
    latest.unlink()
    latest.symlink_to("1.db")
    run(["sqlite3", file, BY_SQLITE["update"]])
    ran = nightly(file, folder)
    rows.equal("one of wrong checksums", 1, ran.status)
    rows.has("it says why", "pages without their sums", ran.output.decode() + ran.errors)
    rows.equal("the latest stays", "1.db", os.readlink(latest))
