#!/usr/bin/env python3
"""Checks the modes of new files under several umasks, and the event line for a port in use.

    bench/run new_files

`persod serve` is started on a missing file and on a port that another program uses. Each start must exit with `device` and an event line that
names the cause. The new file and its WAL must have mode 0600, and an existing file must keep its mode. As root, the script also tries port 80 as
the user nobody, if the system reserves it. Exit status: 1 if a check fails."""
import os
import pathlib
import shutil
import socket
import stat
import sys
import tempfile

from events import Ran, expect, run

UMASKS = 0o000, 0o022, 0o077, 0o277, 0o777
FIRST_FREE = pathlib.Path("/proc/sys/net/ipv4/ip_unprivileged_port_start")


def mode(file: pathlib.Path) -> int:
    return stat.S_IMODE(file.stat().st_mode)


def unstarted(cause: str, port: int) -> Ran:
    return Ran(3, [], [f"unstarted cause={cause} port={port}", "device"])


def main() -> None:
    with tempfile.TemporaryDirectory() as name, socket.create_server(("127.0.0.1", 0)) as held:
        folder, port = pathlib.Path(name), held.getsockname()[1]
        folder.chmod(0o777)
        program = folder / "persod"
        shutil.copyfile(sys.argv[1], program)
        program.chmod(0o755)
        start = str(program), "serve", "--turns", 1, "--port"
        for umask in UMASKS:
            file = folder / f"shop-{umask:o}.db"
            expect(f"umask {umask:o}", run(*start, port, "--db", file, umask=umask), unstarted("port-in-use", port))
            expect(f"the modes under umask {umask:o}", [mode(found) for found in folder.glob(f"{file.name}*")], [0o600, 0o600])
        empty = folder / "empty.db"
        empty.touch()
        empty.chmod(0o640)
        expect("an empty file", run(*start, port, "--db", empty), unstarted("port-in-use", port))
        expect("its mode", mode(empty), 0o640)
        reserved = os.geteuid() == 0 and int(FIRST_FREE.read_text()) > 80
        if reserved:
            expect("port 80", run(*start, 80, "--db", folder / "nobody.db", user="nobody"), unstarted("no-right", 80))
    print(f"{len(UMASKS)} umasks: each new file is private{', and port 80 is reserved' if reserved else ''}")


if __name__ == "__main__":
    main()
