"""A disk as a recorded run leaves it, call by call, and what power that fails may leave of it: what was synced, and of
what was written since any part; or, if that is asked, of what was appended to a file its beginning alone."""

import pathlib
import random
import re
from collections.abc import Callable, Iterator, Sequence

CALLS = "openat,close,pwrite64,ftruncate,fdatasync,fsync,write,sendto,unlink,unlinkat,rename,renameat,renameat2"
LINE = re.compile(r"(\w+)\((.*)\) += (-?\d+)")
SECTOR = 512
Change = Callable[[bytes], bytes]
Files = dict[str, bytes]
"""The bytes of files, by their paths within the room of a run."""
Moment = tuple[Files, bytes]
"""Files as they may be left, and what was answered until then."""


def text_of(escaped: str) -> bytes:
    """The bytes of a text that strace shows in hex."""
    return bytes.fromhex(escaped.replace("\\x", ""))


def path_of(quoted: str) -> pathlib.PurePath:
    """The first path of a call's words."""
    return pathlib.PurePath(text_of(quoted.split('"')[1]).decode())


class File:
    """A file: the bytes that are on the disk for certain, what was written since, and how much was appended."""

    def __init__(self) -> None:
        self.synced = b""
        self.pending: list[Change] = []
        self.appended = 0

    def sync(self) -> None:
        """All that was written is on the disk."""
        for change in self.pending:
            self.synced = change(self.synced)
        self.pending = []

    def append(self, data: bytes) -> None:
        """Bytes are written behind those that were written before."""
        self.pending += sectors(self.appended, data)
        self.appended += len(data)

    def by_chance(self, chance: random.Random, is_ordered: bool) -> bytes:
        """The bytes with some of what wasn't synced; of what was appended the first, if it is kept in its order."""
        some = self.pending
        if is_ordered and self.appended:
            some = some[: chance.randrange(len(some) + 1)]
        else:
            some = [change for change in some if chance.random() < 0.5]
        kept = self.synced
        for change in some:
            kept = change(kept)
        return kept


def written(at: int, data: bytes) -> Change:
    """A change of a file's bytes: `data` put at an offset."""
    return lambda old: old[:at].ljust(at, b"\0") + data + old[at + len(data) :]


def cut_to(size: int) -> Change:
    """A change of a file's bytes: its length set."""
    return lambda old: old[:size].ljust(size, b"\0")


def sectors(at: int, data: bytes) -> list[Change]:
    """The changes that a write is made of, by sectors."""
    ends = [at, *range((at // SECTOR + 1) * SECTOR, at + len(data), SECTOR), at + len(data)]
    return [written(first, data[first - at : last - at]) for first, last in zip(ends, ends[1:]) if first < last]


Names = dict[str, File]
Step = tuple[str, "str | None", "File | None"]
"""A change of a folder's names: a name that is made for a file, that becomes another, or that is removed."""


class Folder:
    """The names of a folder: those that are on the disk for certain, and what was done to them since."""

    def __init__(self) -> None:
        self.synced: Names = {}
        self.pending: list[Step] = []

    def names(self, steps: Sequence[Step]) -> Names:
        """The names after these steps; one that finds nothing does nothing."""
        left = dict(self.synced)
        for name, other, file in steps:
            if file:
                left[name] = file
            elif name in left:
                moved = left.pop(name)
                left.update({other: moved} if other else {})
        return left

    def sync(self) -> None:
        """All names are on the disk."""
        self.synced, self.pending = self.names(self.pending), []


class Disk:
    """The files in some folders of a room, and what was answered, on the standard output or at a port."""

    def __init__(self, room: pathlib.PurePath, *inner: str) -> None:
        self.room = room
        self.folders = {room.joinpath(name): Folder() for name in ("", *inner)}
        self.open: dict[str, pathlib.PurePath] = {}
        self.files: dict[str, File] = {}
        self.output = b""

    def follow(self, call: str, words: str, result: int) -> bool:
        """Makes what a call did. True if something changed."""
        if call == "openat":
            self._open_file(words, result)
        elif call == "close":
            self.open.pop(words, None)
            self.files.pop(words, None)
        elif call in ("write", "sendto"):
            return self._write(call, words, result)
        elif call in ("pwrite64", "ftruncate", "fdatasync", "fsync"):
            return self._change(call, words)
        elif result == 0:
            return self._rename(call, words)
        return False

    def _folder_of(self, path: pathlib.PurePath) -> Folder | None:
        """The folder that a file is in, if it is one of these."""
        return self.folders.get(path.parent)

    def _open_file(self, words: str, result: int) -> None:
        """A file was opened."""
        if result < 0:
            return
        path = path_of(words)
        self.open[str(result)] = path
        if folder := self._folder_of(path):
            names = folder.names(folder.pending)
            if path.name not in names and path not in self.folders:
                folder.pending.append((path.name, None, File()))
            if file := folder.names(folder.pending).get(path.name):
                self.files[str(result)] = file

    def _write(self, call: str, words: str, result: int) -> bool:
        """Something was appended to a file, or written to a stream; whether it was that or an answer."""
        data = text_of(words.split('"')[1])[: max(result, 0)]
        number = words.split(",")[0]
        if file := self.files.get(number):
            file.append(data)
            return True
        if call == "sendto" or number == "1":
            self.output += data
            return True
        return False

    def _change(self, call: str, words: str) -> bool:
        """A file or a folder was written or synced; whether it is one of these."""
        number = words.split(",")[0]
        if folder := self.folders.get(self.open.get(number, pathlib.PurePath())):
            folder.sync()
            return True
        file = self.files.get(number)
        if file is None:
            return False
        if call == "pwrite64":
            data = text_of(words.split('"')[1])
            file.pending.extend(sectors(int(words.rsplit(",", 1)[1]), data))
        elif call == "ftruncate":
            file.pending.append(cut_to(int(words.split(",")[1])))
        else:
            file.sync()
        return True

    def _rename(self, call: str, words: str) -> bool:
        """A file got another name, or none."""
        if call not in ("rename", "unlink"):
            raise ValueError(f"power failures: {call} isn't known")
        path = path_of(words)
        folder = self._folder_of(path)
        if folder is None:
            return False
        other = text_of(words.split('"')[3]).decode() if call == "rename" else None
        folder.pending.append((path.name, other and pathlib.PurePath(other).name, None))
        return True

    def _left(self, names: Callable[[Folder], Names], bytes_of: Callable[[File], bytes]) -> Files:
        """The files that have a name, with these bytes."""
        return {
            str(place.relative_to(self.room) / name): bytes_of(file)
            for place, folder in self.folders.items()
            for name, file in names(folder).items()
        }

    def held(self) -> Names:
        """The files of the room by their names, as they are now."""
        folder = self.folders[self.room]
        return folder.names(folder.pending)

    def synced(self) -> Files:
        """The files with nothing that wasn't synced."""
        return self._left(lambda folder: folder.synced, lambda file: file.synced)

    def by_chance(self, chance: random.Random, is_ordered: bool = False) -> Files:
        """The files with some of what wasn't synced."""

        def names(folder: Folder) -> Names:
            return folder.names([step for step in folder.pending if chance.random() < 0.5])

        return self._left(names, lambda file: file.by_chance(chance, is_ordered))


def moments(disk: Disk, trace: Sequence[str], count: int, is_ordered: bool = False) -> Iterator[Moment]:
    """What a failure of power may leave at each moment of a run, with so many by chance, and what was answered until
    then; each once."""
    chance, seen = random.Random(1), set[object]()
    for line in trace:
        found = LINE.match(line)
        if found and disk.follow(found[1], found[2], int(found[3])):
            for files in [disk.synced(), *(disk.by_chance(chance, is_ordered) for _ in range(count))]:
                key = (tuple(sorted(files.items())), disk.output)
                if key not in seen:
                    seen.add(key)
                    yield files, disk.output


def lay_out(files: Files, room: pathlib.Path) -> None:
    """Makes the files of a moment."""
    for name, data in files.items():
        (room / name).parent.mkdir(exist_ok=True)
        (room / name).write_bytes(data)
