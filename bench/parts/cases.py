"""Parses files of worked examples, whose format is in docs/WORKED.md, into messages and their expected responses."""
import re
from typing import NamedTuple, Optional

from served import fixed_reply, get, post, reply_bytes

SET_UP = """== set-up
office 1 {"do":"product","product":"P1","max":255,"low":0,"check":false}
  200 {"product":"P1","result":"created"}
office 2 {"do":"lot","lot":"L1","product":"P1","first":1000,"count":3}
  200 {"lot":"L1","result":"created"}
import office 3 B1 P1
record,aid,rank,enc,tol,dgi
R1,F00000000101,1,0,0,0101027000
.
  200 {"batch":"B1","records":1,"result":"created","rows":1}
"""
REPEAT = re.compile(r"repeat (\d+) (\d+) (.*)")
FORM = re.compile(r"\{([^{}]*)\}")
ESCAPE = re.compile(rb"\\(?:x([0-9A-Fa-f]{2})|(.))", re.DOTALL)
ONE = {b"r": b"\r", b"n": b"\n", b"t": b"\t", b"\\": b"\\"}


class Line(NamedTuple):
    number: int
    is_answer: bool
    text: str


class Ask(NamedTuple):
    """A message, its line number, and the expected bytes; None if any bytes are accepted."""

    line: int
    message: bytes
    wanted: Optional[bytes]


class Case(NamedTuple):
    title: str
    is_cut: bool
    asks: list[Ask]


class BadForm(Exception):
    """A line that doesn't follow the format."""


# ---- lines


def written_out(text: str, n: Optional[int]) -> str:
    """Returns a line with its short forms expanded."""

    def made(found: re.Match[str]) -> str:
        inside = found[1]
        piece, star, count = inside.rpartition("*")
        if n is not None and inside in ("n", "x", "b"):
            return {"n": f"{n}", "x": f"{n:04X}", "b": f"{n % 256:02X}"}[inside]
        return piece * int(count) if star and count.isdecimal() else found[0]

    return FORM.sub(made, text)


def lines_of(raws: list[tuple[int, str]]) -> list[Line]:
    """Returns the lines of a case. The answers directly after a repeated request are used for each repetition."""
    lines, place = [], 0
    while place < len(raws):
        number, raw = raws[place]
        place += 1
        found = REPEAT.fullmatch(raw.removeprefix("  "))
        if not found:
            lines.append(Line(number, raw.startswith("  "), written_out(raw.removeprefix("  "), None)))
            continue
        group = [(number, raw[: len(raw) - len(found[0])] + found[3])]
        while not raw.startswith("  ") and place < len(raws) and raws[place][1].startswith("  "):
            group.append(raws[place])
            place += 1
        for n in range(int(found[1]), int(found[2]) + 1):
            lines += [Line(at, text.startswith("  "), written_out(text.removeprefix("  "), n)) for at, text in group]
    return lines


def titled(text: str) -> list[tuple[str, list[Line]]]:
    """Returns the cases of a file with their titles."""
    found: list[tuple[str, list[tuple[int, str]]]] = []
    for number, line in enumerate(text.split("\n"), 1):
        if line.startswith("== "):
            found.append((line[3:], []))
        elif found and not line.startswith("#"):
            found[-1][1].append((number, line))
    for _, raws in found:
        while raws and not raws[-1][1]:
            raws.pop()
    return [(title, lines_of(raws)) for title, raws in found]


# ---- expected responses


def spelt(text: str) -> bytes:
    """Returns the bytes that a line denotes."""
    return ESCAPE.sub(lambda found: bytes([int(found[1], 16)]) if found[1] else ONE[found[2]], text.encode())


def wanted_of(answers: list[str]) -> Optional[bytes]:
    """Returns the expected bytes: b"" for an empty response, None if any response is accepted."""
    first = answers[0]
    if first in ("any", "nothing"):
        return None if first == "any" else b""
    if first.startswith("HTTP/"):
        return b"".join(spelt(answer) for answer in answers)
    status, _, rest = first.partition(" ")
    if rest.startswith("{"):
        return reply_bytes(int(status), rest.encode())
    if status != "200":
        return fixed_reply(int(status), rest)
    return reply_bytes(200, "".join(f"{line}\n" for line in [rest, *answers[1:]]).encode(), "text/plain")


def answers_at(lines: list[Line], place: int) -> list[str]:
    """Returns the answers from `place` up to the next request."""
    answers = []
    while place < len(lines) and lines[place].is_answer:
        answers.append(lines[place].text)
        place += 1
    if not answers:
        raise BadForm(f"line {lines[min(place, len(lines) - 1)].number}: no answer")
    return answers


# ---- .exchange


def with_set_up(lines: list[Line]) -> list[Line]:
    whole = []
    for line in lines:
        if line.text == "set-up" and not line.is_answer:
            whole += [Line(line.number, its.is_answer, its.text) for its in titled(SET_UP)[0][1]]
        else:
            whole.append(line)
    return whole


def asked(lines: list[Line], place: int) -> tuple[bytes, int]:
    """Returns the message that begins at `place`, and the index of the line after it."""
    first, _, rest = lines[place].text.partition(" ")
    if first == "get":
        return get(rest), place + 1
    if first != "import":
        number, _, body = rest.partition(" ")
        return raw_post(f"/c/{first}/{number}", body.encode()), place + 1
    client, number, batch, product = rest.split(" ")
    body = b""
    place += 1
    while lines[place].text != "." or lines[place].is_answer:
        body += lines[place].text.encode() + b"\n"
        place += 1
    return raw_post(f"/c/{client}/{number}/batch/{batch}/{product}", body), place + 1


def raw_post(target: str, body: bytes) -> bytes:
    """Returns a POST to any target, even one with an invalid number or name."""
    return post("", 0, body).replace(b"/c//0", target.encode(), 1)


def exchanges_of(text: str) -> list[Case]:
    cases = []
    for title, lines in titled(text):
        lines, asks, place = with_set_up(lines), [], 0
        while place < len(lines):
            line = lines[place]
            if line.is_answer or line.text in ("", "spelling"):
                place += 1
                continue
            message, place = asked(lines, place)
            asks.append(Ask(line.number, message, wanted_of(answers_at(lines, place))))
        cases.append(Case(title, False, asks))
    return cases


# ---- .message


def messages_of(text: str) -> list[Case]:
    cases = []
    for title, lines in titled(text):
        is_cut = bool(lines) and lines[0].text == "cut"
        asks, message, has_begun = [], b"", False
        for place, line in enumerate(lines[is_cut:], is_cut):
            if line.is_answer and has_begun:
                asks.append(Ask(line.number, message, wanted_of(answers_at(lines, place))))
                message, has_begun = b"", False
            elif not line.is_answer and line.text:
                message, has_begun = message + spelt(line.text), True
        cases.append(Case(title, is_cut, asks))
    return cases
