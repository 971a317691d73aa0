"""Runs a program, and refuses it the Nth growth of memory after each of its writes to the standard output.

usage: in_each_call.py N PROGRAM [WORD ..]

The kernel asks here before each mapping of memory and each such write (seccomp's notifications, Linux 5.6). glibc is
told to make each allocation by one mapping, and tries a second one if that is refused, which is refused too. By 0
none is refused. What the program writes and its exit status are its own; a last line on standard error tells how
many growths were refused, of how many, and how many at most came after one write.
"""

import ctypes
import errno
import fcntl
import os
import select
import struct
import sys
import time


# Each allocation is one mmap of its own: a mapping that is refused is a growth that is refused.
ONE_MAPPING_EACH = ":".join(
    f"glibc.malloc.{name}"
    for name in ("top_pad=0", "trim_threshold=0", "mmap_threshold=1", "mmap_max=1000000", "arena_max=1")
)

# Numbers of x86-64: system calls, and what linux/seccomp.h and linux/prctl.h have.
WRITE, MMAP, BRK, SECCOMP, PIDFD_GETFD = 1, 9, 12, 317, 438
NO_NEW_PRIVILEGES, SET_FILTER, NEW_LISTENER = 38, 1, 8
ALLOW, ASK, NO_MEMORY = 0x7FFF0000, 0x7FC00000, 0x00050000 | errno.ENOMEM
RECEIVE, SEND, GO_ON = 0xC0502100, 0xC0182101, 1
ASKED = struct.Struct("=QIIiIQ6Q")  # the question's number, process and flags; the call and its words
TOLD = struct.Struct("=QqiI")
# BPF: load the word at an offset; pass over so many steps if it is equal, or else so many; answer.
LOAD, IF_EQUAL, ANSWER = 0x20, 0x15, 0x06
CALL, FIRST_WORD, FIFTH_WORD = 0, 16, 48  # where a call's number and its words stand
FILTER = [
    (LOAD, 0, 0, CALL),
    (IF_EQUAL, 0, 1, BRK),
    (ANSWER, 0, 0, NO_MEMORY),
    (IF_EQUAL, 0, 2, WRITE),
    (LOAD, 0, 0, FIRST_WORD),
    (IF_EQUAL, 4, 3, 1),  # to the standard output
    (IF_EQUAL, 0, 2, MMAP),
    (LOAD, 0, 0, FIFTH_WORD),
    (IF_EQUAL, 1, 0, 0xFFFFFFFF),  # of no file
    (ANSWER, 0, 0, ALLOW),
    (ANSWER, 0, 0, ASK),
]
LIBC = ctypes.CDLL(None, use_errno=True)


class Program(ctypes.Structure):
    """struct sock_fprog."""

    _fields_ = [("length", ctypes.c_ushort), ("steps", ctypes.c_char_p)]


def called(result: int) -> int:
    """The result of a call of the C library, unless it failed."""
    if result < 0:
        raise OSError(ctypes.get_errno(), os.strerror(ctypes.get_errno()))
    return result


def run_filtered(words: list[str], gate: int) -> None:
    """In the child: asks before the calls of the filter from now on, waits for the gate, and becomes the program."""
    steps = b"".join(struct.pack("=HBBI", *step) for step in FILTER)
    program = Program(len(FILTER), steps)
    environment = {**os.environ, "GLIBC_TUNABLES": ONE_MAPPING_EACH}
    called(LIBC.prctl(NO_NEW_PRIVILEGES, 1, 0, 0, 0))
    called(LIBC.syscall(SECCOMP, SET_FILTER, NEW_LISTENER, ctypes.byref(program)))
    os.read(gate, 1)
    os.execve(words[0], words, environment)


def listener_of(child: int) -> int:
    """The end at which a child's questions arrive, once it has one."""
    while True:
        for name in os.listdir(f"/proc/{child}/fd"):
            if os.readlink(f"/proc/{child}/fd/{name}").endswith("seccomp notify"):
                return called(LIBC.syscall(PIDFD_GETFD, os.pidfd_open(child), int(name), 0))
        time.sleep(0.001)


class Refuser:
    """What is said to each question: the Nth growth after each write is refused, and the one after it."""

    def __init__(self, number: int) -> None:
        self.number = number
        self.since: int | None = None  # how many growths since the last write, or None before the first
        self.refused = self.growths = self.longest = 0

    def is_refused(self, call: int) -> bool:
        """Whether a call is refused, and counts it."""
        if call == WRITE:
            self.since = 0
        if call == WRITE or self.since is None:
            return False
        self.since += 1
        if self.number and self.since == self.number + 1:
            return True  # malloc tries again: no growth of its own
        self.growths += 1
        self.longest = max(self.longest, self.since)
        self.refused += self.since == self.number
        return self.since == self.number


def answer_all(listener: int, refuser: Refuser) -> None:
    """Answers the questions until nobody is left who asks."""
    poll = select.poll()
    poll.register(listener, select.POLLIN)
    while not poll.poll()[0][1] & select.POLLHUP:
        asked = bytearray(ASKED.size)
        fcntl.ioctl(listener, RECEIVE, asked)
        question, _, _, call, *_ = ASKED.unpack(asked)
        told = (0, -errno.ENOMEM, 0) if refuser.is_refused(call) else (0, 0, GO_ON)
        fcntl.ioctl(listener, SEND, TOLD.pack(question, *told))


def main() -> int:
    """Runs the line; the exit status of the program."""
    number, words = int(sys.argv[1]), sys.argv[2:]
    gate, opened = os.pipe()
    child = os.fork()
    if child == 0:
        run_filtered(words, gate)
    listener = listener_of(child)
    os.write(opened, b"\n")
    refuser = Refuser(number)
    answer_all(listener, refuser)
    status = os.waitstatus_to_exitcode(os.waitpid(child, 0)[1])
    counted = f"{refuser.refused} of {refuser.growths} growths refused, at most {refuser.longest} after a write"
    print(counted, file=sys.stderr)
    return status if status >= 0 else 128 - status


if __name__ == "__main__":
    sys.exit(main())
