"""Draws hostile messages by a seed, and checks the responses to them."""
import random
import socket
import struct
from typing import NamedTuple, Optional

from served import fixed_reply, parts, post, received, reply_bytes, request, sent

EVIL = "evil"
MOST_HEAD = 8192
MOST_FILE = 16_777_216
STATUSES = 200, 400, 404, 405, 409, 413, 431
BAD, NO_ROUTE = fixed_reply(400, "malformed"), fixed_reply(404, "no-route")
TOO_LARGE, HEAD = fixed_reply(413, "too-large"), fixed_reply(431, "head-too-large")
UNKNOWN = reply_bytes(409, b'{"code":63,"refused":"session-unknown"}')
DROP = 0.5


class Peer(NamedTuple):
    """A hostile message, and the expected response; None for any complete response except 503, or no response."""

    kind: str
    message: bytes
    wanted: Optional[bytes]

    def is_right(self, came: bytes) -> bool:
        if self.wanted is not None:
            return came == self.wanted
        whole = parts(came)
        return came == b"" or whole is not None and whole[0] in STATUSES


def noise(draw: random.Random) -> Peer:
    data = draw.randbytes(draw.choice((0, 1, draw.randint(2, 8191), 8192, draw.randint(8193, 70_000))))
    if b"\r\n\r\n" in data:
        return Peer("noise", data, None)
    return Peer("noise", data, HEAD if len(data) >= MOST_HEAD else b"")


def lines(draw: random.Random) -> Peer:
    """Returns a request head with too many lines, or without an end."""
    if draw.random() < 0.5:
        return Peer("lines", b"GET /blanks/P1 HTTP/1.1\r\n" + b"A: b\r\n" * draw.randint(33, 1000) + b"\r\n", HEAD)
    return Peer("lines", b"GET /" + b"a" * draw.randint(MOST_HEAD, 100_000), HEAD)


def lengths(draw: random.Random) -> Peer:
    """Returns a request with an invalid, an excessive or a second length."""
    length, wanted = draw.choice((
        (b"Content-Length: 16777217", TOO_LARGE), (b"Content-Length: " + b"9" * draw.randint(9, 1000), TOO_LARGE),
        (b"Content-Length: -1", BAD), (b"Content-Length: 1e3", BAD), (b"Content-Length: 5\r\nContent-Length: 5", BAD),
        (b"Transfer-Encoding: chunked", BAD), (b"Content-Length:", BAD),
    ))
    return Peer("lengths", b"POST /c/evil/1 HTTP/1.1\r\n" + length + b"\r\n\r\n", wanted)


def texts(draw: random.Random) -> Peer:
    """Returns a request with an invalid body."""
    depth = draw.choice((10, 127, 128, 1000, 100_000))
    body = draw.choice((
        b'{"do":' + b"[" * depth, b"[" * depth + b"]" * depth, b'{"a":' * depth, draw.randbytes(300), b'"' * 1000, b'{"do":"abort","session":1e999}',
        b'{"do":"abort","session":1' + b"0" * (8 + depth) + b"}", b'{"do":"reset"}\0', b"\xef\xbb\xbf{}", b'{"do":"re\xc3set"}', b"",
    ))
    return Peer("texts", post(EVIL, 1, body), BAD)


def targets(draw: random.Random) -> Peer:
    target, wanted = draw.choice((
        (b"/" + b"/" * draw.randint(0, 2000), NO_ROUTE), (b"*", NO_ROUTE), (b"/c/evil", NO_ROUTE), (b"/batch/" + b"x" * draw.randint(33, 5000), BAD),
        (b"/batch/..", BAD), (b"/batch/%42", BAD), (b"/batch/B1'--", BAD), (b"/c/evil/1", fixed_reply(405, "POST")), (b"/blanks/P1/../P1", NO_ROUTE),
        (b"http://evil/blanks/P1", NO_ROUTE), (b"/batch/nothing", reply_bytes(409, b'{"code":56,"refused":"batch-unknown"}')),
    ))
    return Peer("targets", b"GET " + target + b" HTTP/1.1\r\n\r\n", wanted)


def changed(draw: random.Random) -> Peer:
    """Returns a valid GET with a few bytes changed."""
    data = bytearray(b"GET /batch/B1/report HTTP/1.1\r\nHost: localhost\r\nAccept: */*\r\nContent-Length: 2\r\n\r\n{}")
    for _ in range(draw.randint(1, 4)):
        data[draw.randrange(len(data))] = draw.randrange(256)
    return Peer("changed", bytes(data), None)


def protocols(draw: random.Random) -> Peer:
    """Returns the first message of another protocol."""
    hello = b"\x16\x03\x01\x02\x00\x01\x00\x01\xfc\x03\x03" + draw.randbytes(508)
    data, wanted = draw.choice((
        (b"PRI * HTTP/2.0\r\n\r\nSM\r\n\r\n", BAD), (b"GET /\r\n\r\n", BAD), (b"SSH-2.0-evil\r\n\r\n", BAD), (b"EHLO evil\r\n\r\n", BAD),
        (b"\r\n\r\n", BAD), (b"GET /blanks/P1 HTTP/1.1\nHost: evil\r\n\r\n", BAD), (b"GET / HTTP/1.1\r\n\r\n" * 50, NO_ROUTE), (hello, None),
    ))
    return Peer("protocols", data, wanted)


def refused(draw: random.Random) -> Peer:
    """Returns a valid request that is refused. Its refusal is kept, under a request number that may have been used before."""
    return Peer("refused", request(EVIL, draw.randint(1, 50), do="abort", session=999_999_999), UNKNOWN)


def short(draw: random.Random) -> Peer:
    """Returns a request that would be accepted, but ends before its last byte."""
    message = request(EVIL, draw.randint(1, 50), do="product", product="evil", max=255, low=0, check=False)
    return Peer("short", message[: draw.randrange(len(message))], b"")


def large(draw: random.Random) -> Peer:
    """Returns an invalid body of the maximum length."""
    body = draw.choice((b" ", b"[", b"\0")) * MOST_FILE
    return Peer("large", post(EVIL, 1, body), BAD)


KINDS = {noise: 20, lines: 5, lengths: 10, texts: 15, targets: 10, changed: 20, protocols: 10, refused: 5, short: 10}


def some_peer(draw: random.Random) -> Peer:
    return draw.choices(list(KINDS), list(KINDS.values()))[0](draw)


# ---- sending


def reset(peer: socket.socket) -> None:
    """Closes the connection with a reset."""
    peer.setsockopt(socket.SOL_SOCKET, socket.SO_LINGER, struct.pack("ii", 1, 0))
    peer.close()


def finished(peer: socket.socket, message: bytes) -> bytes:
    """Sends the whole message, closes the sending side, and returns the response."""
    sent(peer, message)
    try:
        peer.shutdown(socket.SHUT_WR)
    except OSError:
        pass
    return received(peer)


def silent(peer: socket.socket, draw: random.Random) -> bytes:
    """Sends a prefix of a request, then nothing more, and returns the response."""
    message = request(EVIL, 60, do="product", product="evil", max=255, low=0, check=False)
    sent(peer, message[: draw.choice((0, 1, 30, len(message) - 1))])
    return received(peer)


def dripping(peer: socket.socket, draw: random.Random) -> bytes:
    """Sends one byte at a time, with pauses, until the server responds or closes the connection."""
    message = post(EVIL, 61, b" " * draw.randint(1000, 9000))
    peer.settimeout(DROP)
    for byte in message:
        sent(peer, bytes([byte]))
        try:
            return peer.recv(1)
        except TimeoutError:
            pass
        except ConnectionResetError:
            return b""
    return b"it was never cut"
