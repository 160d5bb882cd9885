"""Draws sound contents by a seed. The office and the machines of a shop do random things that are allowed at that moment."""
import random
from collections import Counter, defaultdict

from batch_files import Commands, Product, by_record, rows_of
from contents import IS_FAILED, IS_RUNNING, IS_WAITING, LAST, RUNNING, Contents, Lot, Reply, Session, file_of, record_state, state_of

NAMES = "P1", "p1", "L-1", "B_2", "x" * 32, "0", "m1", "M1", "office", "-"
GROUPINGS = "0101027000", "01020470020000", "8000021122", "800107" + "00" * 7, "9001FF0021" + "5A" * 33, "A00000"
AIDS = "F00000000101", "F0000000020202"
GOING = 0x9000, 0x9000, 0x9000, 0x6101, 0x61FF, 0x6A88
STEPS = {"open": 30, "answer": 60, "end": 3, "remake": 10, "withdraw": 1, "close": 1, "discard": 2}
Card = tuple[str, str]


class Shop:
    """The state of a shop."""

    def __init__(self, draw: random.Random, most_marks: int) -> None:
        self.draw = draw
        self.products = {self.name(number): Product(draw.randint(16, 255), draw.randint(0, 31), 0) for number in range(draw.randint(1, 3))}
        self.lots: list[Lot] = []
        self.batches: dict[str, tuple[str, bytes]] = {}
        self.commands: dict[Card, Commands] = {}
        self.sessions: list[Session] = []
        self.of_card: dict[Card, list[int]] = defaultdict(list)
        self.charged: set[int] = set()
        self.discarded: list[int] = []
        self.remakes: Counter = Counter()
        self.withdrawn: set[Card] = set()
        self.closed: set[str] = set()
        serial = 0
        for number in range(draw.choice((0, 2, 4, 6))):
            lot = Lot(self.name(number), draw.choice(list(self.products)), serial + draw.choice((0, 1, 7)), draw.randint(1, 9))
            self.lots.append(lot)
            serial = lot.first + lot.count
        draw.shuffle(self.lots)
        for number in range(draw.randint(0, 4)):
            self.add_batch(self.name(number), most_marks)

    def name(self, number: int) -> str:
        return self.draw.choice(NAMES)[:31 - len(str(number))] + str(number)

    def add_batch(self, name: str, most_marks: int) -> None:
        lines = []
        for record in range(self.draw.randint(1, 5)):
            for aid in self.draw.sample(AIDS, self.draw.randint(1, 2)):
                mark, tolerated = self.draw.randint(0, most_marks), self.draw.randint(0, 1)
                lines += [f"R{record},{aid},{rank},{mark},{tolerated},{coded}"
                          for rank, coded in enumerate(self.draw.sample(GROUPINGS, self.draw.randint(1, 3)), 1)]
        product = self.draw.choice(list(self.products))
        raw = file_of(*lines, end=self.draw.choice(("\n", "\r\n")))
        rows = rows_of(raw, self.products[product])
        assert rows is not None, raw
        self.batches[name] = product, raw
        for record, its in by_record(rows).items():
            self.commands[name, record] = Commands(its, self.products[product])

    def states(self, card: Card) -> list[int]:
        return [state_of(self.sessions[at], self.commands[card])[0] for at in self.of_card[card]]

    def state(self, card: Card) -> int:
        return record_state(self.states(card), card in self.withdrawn, self.remakes[card])

    def open_cards(self, *states: int) -> list[Card]:
        """Returns the records of open batches that are in one of `states`."""
        return [card for card in self.commands if card[0] not in self.closed and self.state(card) in states]

    def running(self) -> list[int]:
        return [at for at, its in enumerate(self.sessions) if state_of(its, self.commands[its.batch, its.record])[0] == RUNNING]

    def free(self, product: str | None = None) -> list[int]:
        return [serial for lot in self.lots if product in (None, lot.product)
                for serial in range(lot.first, lot.first + lot.count) if serial not in self.charged]

    def step(self) -> None:
        what = self.draw.choices(list(STEPS), list(STEPS.values()))[0]
        getattr(self, what)()

    def open(self) -> None:
        machine = self.draw.choice(("m1", "m2", "M1", "m-3"))
        waiting = self.open_cards(IS_WAITING)
        if any(self.sessions[at].machine == machine for at in self.running()) or not waiting:
            return
        batch, record = self.draw.choice(waiting)
        if blanks := self.free(self.batches[batch][0]):
            serial = self.draw.choice(blanks)
            self.charged.add(serial)
            self.of_card[batch, record].append(len(self.sessions))
            self.sessions.append(Session(machine, batch, record, serial, ()))

    def answer(self) -> None:
        for at in self.draw.sample(running := self.running(), min(len(running), 1)):
            its = self.sessions[at]
            words = its.words + (self.draw.choice(GOING) if self.draw.random() < 0.9 else self.draw.randrange(65_536),)
            self.sessions[at] = its._replace(words=words)

    def end(self) -> None:
        for at in self.draw.sample(running := self.running(), min(len(running), 1)):
            self.sessions[at] = self.sessions[at]._replace(ended=True)

    def remake(self) -> None:
        if failed := self.open_cards(IS_FAILED):
            self.remakes[self.draw.choice(failed)] += 1

    def withdraw(self) -> None:
        if cards := self.open_cards(IS_WAITING, IS_FAILED):
            self.withdrawn.add(self.draw.choice(cards))

    def close(self) -> None:
        unfinished = {batch for batch, _ in self.open_cards(IS_WAITING, IS_FAILED, IS_RUNNING)}
        self.closed |= set(self.draw.sample(done := sorted(self.batches.keys() - unfinished), min(len(done), 1)))

    def discard(self) -> None:
        if blanks := self.free():
            serial = self.draw.choice(blanks)
            self.charged.add(serial)
            self.discarded.append(serial)


def replies_of(draw: random.Random, marks: dict[str, int]) -> list[Reply]:
    """Returns kept replies above the release marks of their clients."""
    numbers = set()
    for _ in range(draw.randint(0, 12)):
        client = draw.choice((*marks, "m1", "m2", "M1", "m8", "office"))
        low = marks.get(client, 0) + 1
        numbers.add((client, min(draw.choice((low, low + draw.randint(0, 9), low + draw.randint(0, 9 * 10 ** 7), LAST - draw.randint(0, 10 ** 7))), LAST)))
    kept = [it for it in sorted(numbers) if it[1] > marks.get(it[0], 0)]
    draw.shuffle(kept)
    return [Reply(*it, draw.randbytes(draw.randint(0, 9)), draw.choice((200, 409)), draw.randbytes(draw.randint(0, 9))) for it in kept]


def drawn(draw: random.Random, version: int) -> Contents:
    """Returns contents that a file of schema version `version` can have."""
    shop = Shop(draw, 2 if version == 3 else 1)
    for _ in range(draw.choice((0, 40, 150))):
        shop.step()
    clients = draw.sample(("m1", "m2", "m7", "M1", "office"), draw.randint(0, 4)) if version > 1 else []
    marks = {client: draw.choice((1, 9999999, 10 ** 7, draw.randint(1, 10 ** 10), draw.randint(1, LAST), LAST)) for client in clients}
    return Contents(shop.products, shop.lots, shop.batches, shop.sessions, shop.discarded, shop.remakes, shop.withdrawn, shop.closed,
                    replies_of(draw, marks), marks)
