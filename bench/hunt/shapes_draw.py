"""Draws values by a seed, counts the cases of a hunt, and writes cases in the format of docs/WORKED.md."""
import random
import re
from collections import Counter
from typing import NamedTuple

MOST_FILE = 16_777_216
MOST_HEAD = 8192
MOST_ROWS = 4096
MOST_RECORDS = 1024
MOST_DATA = 16_384
MOST_BLOCKS = 256
MOST_SERIAL = 10**18 - 1
LETTERS = "ABCDEFGHIJKLMNOPQRSTUVWXYZabcdefghijklmnopqrstuvwxyz0123456789_-"
# Words that have a special meaning at the start of a line.
WORDS = ("get", "import", "repeat", "spelling", "set-up", "cut", "any", "office")
RUN = re.compile(r"((?:\\x..|\\r\\n|\\[rnt\\]|[^\\{}*])|[0-9A-Fa-f]{2})\1{23,}")
SPELT = [chr(byte) if 32 <= byte < 127 and byte not in b"\\*" else f"\\x{byte:02X}" for byte in range(256)]
SPELT[13], SPELT[10], SPELT[9] = "\\r", "\\n", "\\t"
# The number of cases of each kind, and the largest of each size.
COUNTS: Counter = Counter()
MOST: dict[str, int] = {}


def largest(**sizes: int) -> None:
    for name, size in sizes.items():
        MOST[name] = max(MOST.get(name, 0), size)


class Draw(random.Random):
    """A random generator. The same seed results in the same values."""

    def chance(self, share: float) -> bool:
        return self.random() < share

    def size(self, low: int, high: int) -> int:
        """Returns often an end of the range. Otherwise all orders of magnitude have the same probability."""
        end = self.random()
        if end < 0.2:
            return high if end < 0.1 else low
        return low + int((high - low + 1) ** self.random()) - 1

    def name(self) -> str:
        made = "".join(self.choices(LETTERS, k=self.size(1, 32)))
        return self.name() if made in WORDS else made

    def names(self, count: int) -> list[str]:
        made: dict[str, None] = {}
        while len(made) < count:
            made[self.name()] = None
        return list(made)

    def names_of_32(self, count: int) -> list[str]:
        return [f"{k:04}" + "".join(self.choices(LETTERS, k=28)) for k in range(count)]

    def filled(self, size: int) -> bytes:
        """Returns some random bytes, followed by copies of one byte."""
        front = self.randbytes(min(size, self.size(0, 64)))
        return front + self.randbytes(1) * (size - len(front))


class Case(NamedTuple):
    """A case: the extension of its file, its text, and the number of cases that it counts as."""

    kind: str
    text: str
    count: int


def packed(text: str) -> str:
    """Returns the text with repetitions in their short form."""
    return RUN.sub(lambda run: f"{{{run[1]}*{len(run[0]) // len(run[1])}}}", text) if len(text) > 100 else text


def unpacked(text: str) -> str:
    return re.sub(r"\{([^{}*]+)\*(\d+)\}", lambda short: short[1] * int(short[2]), text)


def spelt(raw: bytes) -> list[str]:
    """Returns the lines that denote these bytes."""
    lines = []
    for piece in re.findall(rb"[^\r\n]*[\r\n]+|[^\r\n]+", raw):
        text = packed("".join([SPELT[byte] for byte in piece]))
        if not text[0].isalnum() or text.startswith("repeat "):
            text = f"\\x{piece[0]:02X}" + packed("".join([SPELT[byte] for byte in piece[1:]]))
        lines.append(text)
    return lines


def changed(draw: Draw, raw: bytes, most: int) -> bytes:
    """Returns the bytes with some of them changed, removed or inserted."""
    made = bytearray(raw)
    for _ in range(draw.size(1, 6)):
        at = draw.randrange(len(made) + 1)
        made[at:at + draw.randrange(2)] = bytes(draw.choices(b',"\r\n\0 0AG:/\xEF\xFF{}', k=draw.randrange(2)))
    return bytes(made[:most])
