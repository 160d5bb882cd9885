"""Finds request numbers of one client that collide in a hash table with a fixed seed.

The audit once kept the pair of client and request number of each reply in the toolchain's `IndexSet`, whose hash isn't secret. A client that
chose colliding numbers could make each start take quadratic time.

The hash of a pair multiplies the number, combined with a state that depends on the client, by FACTOR. The XOR of the four 32-bit words of the
product selects the place of the pair: the high 8 bits are a tag, which is stored in the table, and the low bits are the first group to search.
Two pairs with the same tag and nearly the same group must be compared.

STEPS are numbers whose products with FACTOR have only small words, positive or negative. (They are a reduced basis of the lattice of all products
with FACTOR, as vectors of four words.) If they are added to a number a few times, no word of its product changes its high 8 bits, so the tag stays
the same. A part of these numbers also has nearly the same group."""
import itertools
import random
from typing import Iterator

MULTIPLIER = 0x9E37_79B9_7F4A_7C15
SEED = 0x243F_6A88_85A3_08D3
FACTOR = MULTIPLIER ^ 16
STEPS = 281_103_354_007_746, 60_647_440_476_194, 280_658_592_118_569, 240_567_485_937_857
MOST_STEPS = 32
END = 10**18

# The bits of a hash that colliding numbers have in common. The low 8 bits may differ, because a search continues in the next groups. In a table of
# 10,000 pairs or more, the numbers fill a single run of groups. Up to 14 bits select a group if there are at most 147,456 pairs.
COMMON = 0xFF00_3F00


def folded(state: int, value: int, size: int) -> int:
    """Returns the state of the hash after `value`, which has `size` bytes."""
    product = (state ^ value) * (MULTIPLIER ^ 2 * size)
    return (product ^ product >> 64) & 2**64 - 1


def after_name(client: str) -> int:
    """Returns the state of the hash after the name of a client: its length, and then each character."""
    state = folded(SEED, len(client), 8)
    for character in client.encode():
        state = folded(state, character * 0x01_01_01, 1)
    return state


def table_hash(product: int) -> int:
    """Returns the 32 bits by which the table finds a pair, from the product of its number."""
    return (product ^ product >> 32 ^ product >> 64 ^ product >> 96) & 2**32 - 1


def is_central(product: int) -> bool:
    """Returns `True` if the low 24 bits of each word are so far from 0 and 2^24 that MOST_STEPS of each step don't change its high 8 bits."""
    return all(2**22 <= product >> at & 2**24 - 1 < 3 * 2**22 for at in (0, 32, 64, 96))


def colliding(client: str) -> Iterator[int]:
    """Yields about 200,000 request numbers of `client`, from 1 to 10^18 - 1, that collide."""
    state = after_name(client)
    draw = random.Random(client)
    first = 0
    while not is_central(first * FACTOR):
        first = state ^ draw.randrange(END // 4, END // 2)
    common = table_hash(first * FACTOR) & COMMON
    multiples = [[count * step for count in range(-MOST_STEPS, MOST_STEPS + 1)] for step in STEPS]
    for added in itertools.product(*multiples):
        combined = first + sum(added)
        if table_hash(combined * FACTOR) & COMMON == common and 1 <= combined ^ state < END:
            yield combined ^ state
