"""Reads event lines, which docs/EVENTS.md describes, and runs programs that write them."""
import pathlib
import subprocess
import sys
import time
from typing import NamedTuple

from served import environment

PLAIN = set(range(32, 127)) - set(b'"\\')


def quoted(data: bytes) -> str:
    """Returns bytes that a client or a file supplied, as an event line shows them."""
    return '"' + "".join(chr(byte) if byte in PLAIN else f"\\x{byte:02X}" for byte in data) + '"'


def path(file: pathlib.Path) -> str:
    return quoted(str(file).encode())


def lines(events: pathlib.Path, count: int = 0) -> list[str]:
    """Returns the event lines. Waits until there are `count`, because the line of a connection is written after its reply."""
    for _ in range(100):
        found = events.read_text("ascii").splitlines()
        if len(found) >= count:
            break
        time.sleep(0.1)
    return found


def expect(what: str, came: object, wanted: object) -> None:
    """Ends the run if `came` differs from `wanted`."""
    if came != wanted:
        sys.exit(f"{what}:\n  expected {wanted!r}\n  found    {came!r}")


class Ran(NamedTuple):
    """The result of a run: the exit status, the lines on standard output, and the lines on standard error."""

    status: int
    printed: list[str]
    errors: list[str]


def run(
    program: str, *words: object, typed: str = "", level: str = "1", user: str | None = None, seconds: float = 600, umask: int = -1
) -> Ran:
    """Runs a program to its end. `user` is the user to run it as. `umask` -1 keeps the umask of this process."""
    ran = subprocess.run(
        [program, *map(str, words)], input=typed, capture_output=True, text=True, env=environment(level), user=user, timeout=seconds,
        umask=umask,
    )
    return Ran(ran.returncode, ran.stdout.splitlines(), ran.stderr.splitlines())
