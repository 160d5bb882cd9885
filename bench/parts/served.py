"""Runs `persod serve` as a process on a database file, and sends messages to it over the loopback interface. Requires Linux."""
import atexit
import json
import os
import pathlib
import signal
import socket
import subprocess
import sys
import time
from typing import Any, Optional, Union

HOST = "127.0.0.1"
MOST_TURNS = 1_000_000
PATIENCE = 600


class Stopped(Exception):
    """The server exited before it listened. Has its status and its output."""

    def __init__(self, status: int, printed: str) -> None:
        super().__init__(f"status {status}, {printed!r}")
        self.status, self.printed = status, printed


class Server:
    """A server on a database file. The constructor waits until the server listens, unless `wait` is false. If `events` is a path, the server
    appends its event lines there. `level` is the value of PERSOD_LOG."""

    def __init__(
        self, program: str, database: pathlib.Path, port: int, turns: int = MOST_TURNS, wait: bool = True, events: Optional[pathlib.Path] = None,
        level: str = "1",
    ) -> None:
        self.port, self.turns = port, turns
        words = self.command(program, database)
        errors = events.open("ab") if events else subprocess.PIPE
        self.begun = time.monotonic()
        self.process = subprocess.Popen(
            words, stdin=subprocess.DEVNULL, stdout=subprocess.PIPE, stderr=errors, env=environment(level if events else "")
        )
        atexit.register(self.process.kill)
        if wait:
            self.listen()

    def command(self, program: str, database: pathlib.Path) -> list[str]:
        return [program, "serve", "--db", str(database), "--port", str(self.port), "--turns", str(self.turns)]

    def listen(self) -> float:
        """Waits until the server listens, and returns the time in seconds."""
        assert self.process.stdout
        line = self.process.stdout.readline()
        took = time.monotonic() - self.begun
        if line != f"listening {HOST}:{self.port}\n".encode():
            status, printed = self.wait()
            raise Stopped(status, line.decode() + printed)
        return took

    def wait(self) -> tuple[int, str]:
        """Returns the exit status, and the output that wasn't read yet."""
        out, err = self.process.communicate(timeout=PATIENCE)
        return self.process.returncode, (out + (err or b"")).decode()

    def served(self) -> None:
        """Waits until the server has served all connections, and ends the run if its exit was not normal."""
        status, printed = self.wait()
        if (status, printed) != (0, f"served {self.turns}\n"):
            sys.exit(f"the server exited with status {status}, {printed!r}; expected 0, 'served {self.turns}'")

    def kill(self) -> None:
        self.process.send_signal(signal.SIGKILL)
        self.process.communicate()

    def resident(self) -> int:
        """Returns the resident size in bytes."""
        return _status(self.process.pid, "VmRSS")

    def peak(self) -> int:
        """Returns the peak resident size in bytes."""
        return _status(self.process.pid, "VmHWM")

    def processor(self) -> float:
        """Returns the processor time used so far, in seconds."""
        return int(pathlib.Path(f"/proc/{self.process.pid}/schedstat").read_text().split()[0]) / 1e9


def environment(level: str) -> dict[str, str]:
    """Returns the environment of a program, with event lines of `level`, or without them if it is empty."""
    others = {name: value for name, value in os.environ.items() if name != "PERSOD_LOG"}
    return {**others, "PERSOD_LOG": level} if level else others


def _status(child: int, name: str) -> int:
    for line in pathlib.Path(f"/proc/{child}/status").read_text().splitlines():
        if line.startswith(f"{name}:"):
            return int(line.split()[1]) * 1024
    sys.exit(f"no {name} in /proc: memory can't be measured here")


def free_port() -> int:
    with socket.socket() as probe:
        probe.bind((HOST, 0))
        return probe.getsockname()[1]


# ---- messages


def post(client: str, number: int, body: Union[bytes, str], tail: str = "") -> bytes:
    """Returns a POST of `body`. A text is encoded in UTF-8."""
    raw = body.encode() if isinstance(body, str) else body
    head = f"POST /c/{client}/{number}{tail} HTTP/1.1\r\nHost: localhost\r\nContent-Length: {len(raw)}\r\n\r\n"
    return head.encode() + raw


def request(client: str, number: int, **members: Any) -> bytes:
    return post(client, number, json.dumps(members, separators=(",", ":")))


def imported(client: str, number: int, batch: str, product: str, raw: bytes) -> bytes:
    return post(client, number, raw, f"/batch/{batch}/{product}")


def get(target: str) -> bytes:
    return f"GET {target} HTTP/1.1\r\nHost: localhost\r\n\r\n".encode()


# ---- connections


def connect(port: int) -> socket.socket:
    peer = socket.create_connection((HOST, port), timeout=PATIENCE)
    peer.setsockopt(socket.IPPROTO_TCP, socket.TCP_NODELAY, 1)
    return peer


def sent(peer: socket.socket, message: bytes) -> None:
    """Sends a message, or as much of it as the peer accepts. A peer that refuses the head closes the connection before it reads the body."""
    try:
        peer.sendall(message)
    except (BrokenPipeError, ConnectionResetError):
        pass


def received(peer: socket.socket) -> bytes:
    """Returns all bytes up to the end of the connection. A reset also ends it."""
    pieces = []
    try:
        while piece := peer.recv(65536):
            pieces.append(piece)
    except ConnectionResetError:
        pass
    return b"".join(pieces)


def exchange(port: int, message: bytes, piece: Optional[int] = None, end: bool = False) -> bytes:
    """Sends a message in pieces of `piece` bytes, or whole, and returns the response. With `end`, closes the sending side afterwards."""
    with connect(port) as peer:
        for begin in range(0, len(message), piece or max(len(message), 1)):
            sent(peer, message[begin : begin + piece] if piece else message)
        if end:
            try:
                peer.shutdown(socket.SHUT_WR)
            except OSError:
                pass
        return received(peer)


def parts(reply: bytes) -> Optional[tuple[int, bytes]]:
    """Returns the status and the body of a complete response, otherwise None."""
    head, found, body = reply.partition(b"\r\n\r\n")
    lines = head.split(b"\r\n")
    lengths = [line[16:] for line in lines if line.startswith(b"Content-Length: ")]
    if not found or not lines[0].startswith(b"HTTP/1.1 ") or len(lengths) != 1 or int(lengths[0]) != len(body):
        return None
    return int(lines[0][9:12]), body


PHRASES = {
    200: "OK",
    400: "Bad Request",
    404: "Not Found",
    405: "Method Not Allowed",
    409: "Conflict",
    413: "Payload Too Large",
    431: "Request Header Fields Too Large",
    503: "Service Unavailable",
}


def reply_bytes(status: int, body: bytes, kind: str = "application/json", allow: Optional[str] = None) -> bytes:
    """Returns a complete response with `body`. `allow` is the allowed method in a 405."""
    head = f"HTTP/1.1 {status} {PHRASES[status]}\r\nContent-Type: {kind}\r\nContent-Length: {len(body)}\r\nConnection: close\r\n"
    return (head + (f"Allow: {allow}\r\n" if allow else "") + "\r\n").encode() + body


def fixed_reply(status: int, name: str) -> bytes:
    """Returns a fixed response by its name. For status 405, `name` is the allowed method."""
    allow, name = (name, "method") if name in ("GET", "POST") else (None, name)
    return reply_bytes(status, f'{{"code":{status},"refused":"{name}"}}'.encode(), allow=allow)


STORAGE = fixed_reply(503, "storage")
