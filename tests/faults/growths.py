"""Growths of memory of a run, counted and refused.

glibc is told to make each allocation by one mmap, and strace refuses the Nth mmap and the one by which malloc tries
again. Growths that move a block by mremap are not reached.
"""

from typing import NamedTuple

from faults.in_each_call import ONE_MAPPING_EACH
from faults.program import Ran

# strace stops the program at the calls that it traces, and at no other.
EACH_A_MAPPING = ["-f", "--seccomp-bpf", "-E", f"GLIBC_TUNABLES={ONE_MAPPING_EACH}"]
NO_HEAP = ["-e", "inject=brk:error=ENOMEM"]
MAPPINGS = [*EACH_A_MAPPING, *NO_HEAP, "-e", "trace=mmap,munmap,brk"]
MAPPINGS_AND_ANSWERS = [*EACH_A_MAPPING, *NO_HEAP, "-e", "trace=mmap,munmap,brk,write"]


class Refused(NamedTuple):
    """What came of one refusal."""

    kind: str
    complaint: str | None


def mappings(ran: Ran) -> tuple[int, int]:
    """The numbers of the first and the last mapping of an undisturbed run that the program itself asks for; the
    loader's come before."""
    calls = [line.split("(")[0] for line in ran.trace]
    loaded = calls.index("munmap") if "munmap" in calls else 0
    return calls[:loaded].count("mmap") + 1, calls.count("mmap")


def mappings_answered(ran: Ran) -> int:
    """How many mappings a run asks for before it answers for the first time in its trace."""
    answered = next(at for at, line in enumerate(ran.trace) if line.startswith("write(1,"))
    return sum(line.startswith("mmap(") for line in ran.trace[:answered])


def failing(number: int, is_lasting: bool) -> list[str]:
    """How strace refuses one mapping, or that one and all later ones; it tells only those that are refused."""
    when = f"{number}+" if is_lasting else f"{number}..{number + 1}"
    return [*NO_HEAP, "-Z", "-e", "trace=mmap,brk", "-e", f"inject=mmap:error=ENOMEM:when={when}"]


def refusing(number: int, is_lasting: bool) -> list[str]:
    """How strace refuses a growth to a program that it runs, or that growth and all later ones."""
    return [*EACH_A_MAPPING, *failing(number, is_lasting)]


def was_refused(ran: Ran) -> bool:
    """Whether a growth of a run was refused."""
    return any(line.startswith("mmap(") and "INJECTED" in line for line in ran.trace)


def lost_500(single: Refused, lasting: Refused) -> str | None:
    """A growth whose refusal is answered by a 500 is so too if all later ones are refused: room for it is reserved."""
    if single.kind == "ended broken" and lasting.kind != "ended broken":
        return f"one refusal is answered by a 500, and with all later ones it {lasting.kind}"
    return None
