"""How the tests of this repository are run, and what they share.

    pytest tests -m "not slow"                           at the top: all that takes seconds
    pytest tests -n auto                                 all, by a process for each processor
    pytest tests/tables -k moving -vv                    some, with the whole of a difference
    PROGRAM=$(./uss_desk --unproved) pytest tests -m quick       a tenth, over a program without proofs

The program is the file that the variable PROGRAM names, or else the one that `./uss_desk --build` has proved and built
of these sources. A test whose Debian packages aren't installed is skipped; its reason is the line that installs them;
packages.txt lists them all.

| marker | what it says of a test |
|---|---|
| `slow` | it takes more than ten seconds or so |
| `quick` | it is short enough for a program that is compiled without proofs, which is a hundred times slower |
| `quick_each(N)` | the same of each Nth of the test's rows |
| `proved` | it wants the proved program: for its file, its speed, or the memory that it asks for |
| `alone` | it takes the time, or needs the machine for itself: run such tests without -n |
| `browser`, `proxy`, `root` | it drives chromium; it has nginx before the desk; it has to be run by root |

- A row that rests on nothing before it is a parameter of a test, with its name as `id`.
- A scenario, whose steps rest on those before, is one test: the fixture `rows` compares and counts each step.
- Whatever is started, made or mounted is a fixture, or entered in a `with` within one, so that it ends.
- A test gives the same verdict on a slow, busy machine. It waits for a condition (`until`), a minute or more, and never
  for an effect a fixed time. What is counted a second, or has to take less than some seconds, is compared with what the
  same run has measured. A proxy may count a request for a moment that was answered, and write its line later.

| of | has |
|---|---|
| `harness.program` | `PROGRAM`, `DESK`; `run("check", "--db", path)`: status, output, errors of a line |
| `harness.requests` | `put`, `volume`, `clear` ..: requests as bytes; `answers`: an output, cut into its answers |
| `harness.serving`, fixture `serve` | a desk at a free port: started, awaited, asked, held, killed, started again |
| `harness.nginx` | nginx with nginx.conf before it |
| `harness.setting`, fixture `setting` | a desk over a file that is started again when it ends, behind nginx |
| `harness.ports` | `free_port`, `is_listening`, `until` |
| `harness.mounting`, fixture `apart` | disks in memory of some KB, which some commands see alone |
| `harness.sums` | the sums on the pages of a file: counted, and made anew |
| `harness.tracing` | strace: the words before a command that is killed at a call |
| fixture `room` | a folder that is removed afterwards |
| fixture `desk_file` | the path of a desk's file in it, in which operators are enrolled |
"""

from __future__ import annotations

import collections
import contextlib
import os
import pathlib
import subprocess
import sys
import tempfile
from collections.abc import Callable, Iterable, Iterator
from typing import Any

import pytest

pytest.register_assert_rewrite("harness.rows", "tables.judging", "lies.changes", "lies.desk", "lies.flights")

from harness.mounting import way_to_mount  # noqa: E402  (rewritten before it is read)
from harness.packages import lacking  # noqa: E402
from harness.places import TESTS  # noqa: E402
from harness.program import PROGRAM, SCRIPT, run  # noqa: E402
from harness.rows import Rows, Subtests  # noqa: E402
from harness.serving import Served  # noqa: E402
from harness.setting import Setting  # noqa: E402

sys.dont_write_bytecode = True
os.environ["PYTHONDONTWRITEBYTECODE"] = "1"
os.environ["PATH"] = f"{os.environ.get('PATH', '')}:/usr/sbin"
NO_PROGRAM = """no program is built of these sources.
./uss_desk --build proves and builds it, which takes half an hour. Or name one:
PROGRAM=/usr/bin/uss_desk pytest tests, or PROGRAM=$(./uss_desk --unproved) pytest tests -m quick"""
NOTED = collections.Counter[str]()
"""What tests noted: `record_property("answers alike", 12)` adds 12 to these."""


def pytest_addoption(parser: pytest.Parser) -> None:
    """How much is made at random, of which seed, and how many faults are put in."""
    group = parser.getgroup("desk", "how much the tests of the desk try")
    group.addoption("--seed", type=int, default=1, help="the seed of histories and bodies (1)")
    group.addoption("--answers", type=int, default=3000, help="how many answers histories have (some 3,000)")
    group.addoption("--bodies", type=int, default=1000, help="how many random bodies there are (1,000)")
    group.addoption("--times", type=int, default=1, help="damage files N times as often")
    group.addoption("--every", action="store_true", help="refuse each growth of memory, and not a sample")
    group.addoption("--lives", type=int, default=20, help="kill desks under load so often (20)")


def pytest_sessionstart(session: pytest.Session) -> None:
    """Ends at once if there is no program, or if the script's own is of other sources."""
    if "PYTEST_XDIST_WORKER" in os.environ or session.config.option.collectonly:
        return
    is_built = [str(SCRIPT), "--built"]
    if "PROGRAM" not in os.environ and subprocess.run(is_built, capture_output=True, check=False).returncode != 0:
        pytest.exit(NO_PROGRAM, returncode=2)
    if not os.access(PROGRAM, os.X_OK):
        pytest.exit(f"PROGRAM={PROGRAM} can't be run", returncode=2)


class Lacking(pytest.File):
    """A file of tests that isn't read, since packages lack that it needs."""

    def collect(self) -> Iterable[pytest.Item]:
        """Nothing."""
        packages = " ".join(lacking(user_of(self.path)))
        pytest.skip(f"not installed: apt-get install -y {packages}", allow_module_level=True)


def user_of(path: pathlib.Path) -> str:
    """The name by which packages.txt has a file of tests: its folder's, or else its own."""
    return path.relative_to(TESTS).parts[0].removesuffix(".py")


def pytest_pycollect_makemodule(module_path: pathlib.Path, parent: pytest.Collector) -> pytest.Collector | None:
    """Skips a file whose packages lack."""
    is_lacking = TESTS in module_path.parents and lacking(user_of(module_path))
    return Lacking.from_parent(parent, path=module_path) if is_lacking else None


def pytest_collection_modifyitems(items: list[pytest.Item]) -> None:
    """Marks each Nth row of a test as quick."""
    seen = collections.Counter[str]()
    for item in items:
        if each := item.get_closest_marker("quick_each"):
            name = item.nodeid.partition("[")[0]
            if seen[name] % each.args[0] == 0:
                item.add_marker("quick")
            seen[name] += 1


def pytest_runtest_setup(item: pytest.Item) -> None:
    """Skips what root alone may do."""
    if item.get_closest_marker("root") and os.geteuid() != 0:
        pytest.skip("it has to be run by root")


def pytest_runtest_logreport(report: pytest.TestReport) -> None:
    """Counts what a test noted."""
    if report.when == "teardown":
        NOTED.update({name: value for name, value in report.user_properties if isinstance(value, int)})


def pytest_terminal_summary(terminalreporter: Any) -> None:
    """Tells what the tests noted."""
    for name, number in sorted(NOTED.items()):
        terminalreporter.write_line(f"{number} {name}")


@pytest.fixture
def rows(subtests: Subtests) -> Rows:
    """Compares the steps of a scenario, each counted by itself."""
    return Rows(subtests)


@pytest.fixture
def room() -> Iterator[pathlib.Path]:
    """A folder that is removed afterwards."""
    with tempfile.TemporaryDirectory(prefix="desk-") as folder:
        yield pathlib.Path(folder)


@pytest.fixture
def desk_file(room: pathlib.Path) -> pathlib.Path:
    """The path of a file in which alfa and bravo are enrolled up to 100."""
    path = room / "desk.db"
    for name in ("alfa", "bravo"):
        enrolled = run("enrol", "--db", str(path), name, "100")
        assert enrolled.output == f"enrolled {name} 100\n".encode(), enrolled
    return path


@pytest.fixture
def serve() -> Iterator[Callable[..., Served]]:
    """Starts a desk at a free port; the words are those of harness.serving.Served. It is killed afterwards."""
    with contextlib.ExitStack() as left:
        yield lambda *words, **more: left.enter_context(Served(*words, **more))


@pytest.fixture(scope="session")
def apart() -> list[str]:
    """The words that run a command where it may mount."""
    words = way_to_mount()
    if words is None:
        pytest.skip("no file system can be mounted here")
    return words


@pytest.fixture(scope="module")
def setting() -> Iterator[Setting]:
    """A desk over a file behind nginx, of the operators alfa, bravo and carol; each module has one of its own."""
    with Setting() as made:
        yield made
