"""strace, which kills a command at one of its calls."""


def killed_at(call: str, number: int) -> list[str]:
    """The words before a command that is to be killed at its call of this name and number, counted from 1."""
    inject = f"inject={call}:signal=KILL:when={number}"
    return ["strace", "-f", "-o", "/dev/null", "-e", f"trace={call}", "-e", inject]


def was_killed(status: int) -> bool:
    """Whether a command that strace started was killed, by its exit status."""
    return status in (-9, 137)
