"""Draws exchanges of every shape (requests, imports and accounts), with the responses that the model predicts."""
import json
from typing import NamedTuple

from row_groups import by_record
from shapes_batches import (FAULTS, SELDOM, SMALL, Plan, Product, Row, Shape, application, lines_of, measured, most_applications,
                            some_product, some_rows, text_of, whole_file, with_fault)
from shapes_draw import COUNTS, MOST_FILE, MOST_RECORDS, MOST_SERIAL, Case, Draw, largest, packed
from shapes_machine import Books, refused

# Requests as JSON, valid and malformed.

JUNK = ("null", "[]", '{"a":{}}', "-1.5e3", '"\\u0041\\n"', "[" * 126 + "]" * 126)
WRONG = ("null", "[]", "{}", "-1", "-0", "1.0", "1e1", '""', '"a.b"', '"' + "x" * 33 + '"', '"' + "x" * 9000 + '"', "1" + "0" * 18, "2" + "0" * 400, "01")
PAST = {"max": ("15", "256"), "low": ("32",), "first": (str(10**18),), "count": ("0", "1000001"), "session": ("0", str(10**18)),
        "index": (str(2**32),), "upto": ("0", str(10**18)), "sw": ('"900"', '"90000"', '"90G0"', "9000"), "check": ("0", "1", '"true"'),
        "do": ('"import"', '"Reset"')}
PAST_LOT = f'{{"do":"lot","lot":"L1","product":"P1","first":{MOST_SERIAL},"count":2}}'


def dumped(members: dict) -> str:
    return json.dumps(members, separators=(",", ":"))


def spelt_json(draw: Draw, members: dict) -> str:
    """Returns a text that is read as these members."""
    if draw.chance(0.6):
        return dumped(members)
    parts = [(name, spelt_word(draw, value) if isinstance(value, str) else dumped(value)) for name, value in members.items()]
    draw.shuffle(parts)
    if draw.chance(0.3):
        parts.insert(0, (draw.choice(list(members)), draw.choice(JUNK)))
    gaps = iter([" " * draw.choice((0, 0, 1, draw.size(0, 20))) for _ in range(4 * len(parts) + 1)])
    spelt = [f"{next(gaps)}{spelt_word(draw, name)}{next(gaps)}:{next(gaps)}{value}{next(gaps)}" for name, value in parts]
    return "{" + ",".join(spelt) + "}" + next(gaps)


def spelt_word(draw: Draw, text: str) -> str:
    return '"' + "".join(f"\\u{ord(it):04x}" if draw.chance(0.05) else it for it in text) + '"'


def malformed(draw: Draw, members: dict) -> str:
    """Returns a text that is almost a request."""
    text, name = dumped(members), draw.choice(list(members))
    deep = draw.size(127, 3000)
    other = draw.choice(PAST.get(name, ('"R 1"',)) + WRONG)
    return draw.choice((
        dumped({its: value for its, value in members.items() if its != name}),
        dumped({**members, "more" + draw.name(): draw.choice((1, True, "1", None))}),
        text.replace(f'"{name}":{dumped(members[name])}', f'"{name}":{other}', 1),
        text[:draw.randrange(1, len(text))], text + draw.choice("}],x0{"), f"[{text}]", text.replace(":", "=", 1), text.replace('"', "'"),
        f'{{"{name}":{"[" * deep}{"]" * deep},{text[1:]}', f'{{"{name}":1e400,{text[1:]}', f'{{"{name}":"\\ud800",{text[1:]}',
        draw.choice(("null", "0", '""', "[]", "{}", "true", "nul", '{"do":"reset",}', PAST_LOT)),
    ))


# Exchanges.

TURNS = {"product": 2, "lot": 3, "import": 5, "open": 8, "answer": 4, "abort": 2, "reset": 2, "discard": 3, "remake": 6, "withdraw": 3, "close": 3,
         "release": 2}


class Sent(NamedTuple):
    client: str
    number: int
    do: str
    members: dict
    text: str


class Talk:
    """A case of exchanges in progress."""

    def __init__(self, draw: Draw, clients: list[str]) -> None:
        self.draw, self.clients, self.books = draw, clients, Books()
        self.lines: list[tuple[str, str]] = []
        self.labels: list[str] = []
        self.sent: list[Sent] = []
        self.stops = draw.choice((0.0, 0.02, 0.2))
        # The last number, except for that of `release_all`.
        self.last = MOST_SERIAL - draw.randrange(2)

    def put(self, ask: str, reply: dict, label: str) -> None:
        self.lines.append((ask, f"{409 if 'code' in reply else 200} {dumped(dict(sorted(reply.items())))}"))
        self.labels.append(f"{label}, refused {reply['code']}" if "code" in reply else label)

    def send(self, sent: Sent) -> dict:
        client, number, do, members, text = sent
        self.sent.append(sent)
        reply = self.books.arrive(client, number, text, do, members)
        ask = f"{client} {number} {packed(text)}"
        if do == "import":
            ask = f"import {client} {number} {members['batch']} {members['product']}\n" + packed_lines(members["plan"].raw) + "."
        self.put(ask, reply, f"ask {do}" if "result" not in reply else f"ask {do}, {reply['result']}")
        return reply

    def number(self, client: str, upto: int = MOST_SERIAL) -> int:
        """Returns a number that the client hasn't used, mostly above its release mark. For a release up to a number, it is often that number or the
        next."""
        mark = self.books.marks[client] if self.draw.chance(0.97) else 0
        number = mark + self.draw.size(1, self.last - mark)
        if upto < self.last and self.draw.chance(0.3):
            number = upto + self.draw.randrange(2)
        return self.number(client, upto) if (client, number) in self.books.kept else number

    def ask(self, client: str, do: str, text: str | None = None, **members: object) -> dict:
        number = self.number(client, members.get("upto", MOST_SERIAL))
        largest(digits_of_a_number=len(str(number)), client=len(client), name=max([len(it) for it in members.values() if isinstance(it, str)] + [0]))
        if do == "import":
            text = "{batch}/{product}/".format(**members) + members["plan"].raw.decode("latin-1")
        return self.send(Sent(client, number, do, members, text or spelt_json(self.draw, {"do": do, **members})))

    def accounts(self, batch: str, product: str) -> None:
        self.put(f"get /batch/{batch}", self.books.batch_account(batch), "account of a batch")
        self.put(f"get /blanks/{product}", self.books.blanks_account(product), "account of blanks")
        report = self.books.report(batch)
        self.put(f"get /batch/{batch}/report", refused(56), "report")
        if report is not None:
            self.lines[-1], self.labels[-1] = (self.lines[-1][0], f"200 {report}"), "report"

    def one_of(self, things: dict) -> str:
        return self.draw.choice(list(things)) if things and self.draw.chance(0.95) else self.draw.name()

    def blank(self, product: str | None) -> int:
        lots = [lot for lot in self.books.lots.values() if product in (None, lot[0])]
        if not lots or self.draw.chance(0.05):
            return self.draw.size(0, MOST_SERIAL)
        _, first, count = self.draw.choice(lots)
        blanks = [first + self.draw.size(0, count - 1) for _ in range(3)]
        return next((blank for blank in blanks if blank not in self.books.charged), blanks[0])

    def members(self, client: str, do: str) -> dict:
        """Returns the members of a request that can mostly be accepted now."""
        draw, books = self.draw, self.books
        if do == "product":
            known = {**books.products, draw.name(): some_product(draw)}
            name = draw.choice(list(known))
            return {"product": name, **(some_product(draw) if draw.chance(0.2) else known[name])._asdict()}
        if do == "lot":
            return self.lot()
        if do == "import":
            return self.batch()
        if do == "open":
            waiting = {name: its for name, its in books.batches.items() if its.waiting()}
            name = self.one_of(waiting if draw.chance(0.8) else books.batches)
            return {"batch": name, "blank": self.blank(books.batches[name].product if name in books.batches and draw.chance(0.9) else None)}
        if do == "discard":
            return {"blank": self.blank(None)}
        if do in ("answer", "abort"):
            return self.turn(client, do)
        if do in ("remake", "withdraw"):
            name = self.one_of(books.batches)
            records = books.batches[name].records if name in books.batches else {}
            failed = {its: record for its, record in records.items() if record.state() == "failed"}
            return {"batch": name, "record": self.one_of(failed if failed and draw.chance(0.7) else records)}
        if do == "release":
            used = [number for its, number in books.kept if its == client]
            return {"upto": draw.choice((max(books.marks[client], 1), draw.choice(used or [1]), draw.size(1, MOST_SERIAL)))}
        return {"batch": self.one_of(books.batches)} if do == "close" else {}

    def lot(self) -> dict:
        draw, lots = self.draw, self.books.lots
        if lots and draw.chance(0.1):
            name, (product, first, count) = draw.choice(list(lots.items()))
            count = count if draw.chance(0.5) else min(draw.size(1, 1000), MOST_SERIAL - first + 1)
            return {"lot": name, "product": product, "first": first, "count": count}
        ends = [0, MOST_SERIAL, *(first + count for _, first, count in lots.values())]
        first = min(draw.choice(ends) if draw.chance(0.3) else draw.size(0, MOST_SERIAL), MOST_SERIAL)
        count = min(draw.size(1, 1_000_000), MOST_SERIAL - first + 1)
        largest(blanks_of_a_lot=count, serial=first + count - 1)
        return {"lot": draw.name(), "product": self.one_of(self.books.products), "first": first, "count": count}

    def batch(self) -> dict:
        draw, books = self.draw, self.books
        if books.batches and draw.chance(0.2):
            name, its = draw.choice(list(books.batches.items()))
            plan = its.plan if draw.chance(0.6) else its.plan._replace(raw=its.plan.raw + b'""\n')
            return {"batch": name, "product": its.product if draw.chance(0.9) else draw.name(), "plan": plan}
        product = self.one_of(books.products)
        plan = import_plan(draw, books.products.get(product) or some_product(draw))
        measured(plan)
        return {"batch": draw.name(), "product": product, "plan": plan}

    def turn(self, client: str, do: str) -> dict:
        draw, running = self.draw, self.books.running(client)
        if running is None or draw.chance(0.05):
            running = draw.choice(self.books.all_sessions) if self.books.all_sessions and draw.chance(0.9) else None
        number = running.number if running else draw.size(1, MOST_SERIAL)
        if do == "abort":
            return {"session": number}
        index = running.words if running and draw.chance(0.95) else draw.size(0, 2**32 - 1)
        word = "9000" if draw.chance(0.8) else f"61{draw.randrange(256):02x}"
        if draw.chance(self.stops):
            word = draw.choice(("6a88", "6A88", f"{draw.randrange(65536):04X}", f"62{draw.randrange(256):02X}"))
        elif running and index < len(running.record.commands) and running.record.commands[index].is_tolerant_end and draw.chance(0.3):
            word = "6a88"
        return {"session": number, "index": index, "sw": word}

    def step(self) -> None:
        draw = self.draw
        client, pick = draw.choice(self.clients), draw.random()
        if pick < 0.03 and self.sent:
            self.send(draw.choice(self.sent))
        elif pick < 0.05 and self.sent:
            earlier = draw.choice(self.sent)
            do = draw.choice([it for it in TURNS if it != earlier.do and it != "import"])
            members = self.members(earlier.client, do)
            self.send(Sent(earlier.client, earlier.number, do, members, spelt_json(draw, {"do": do, **members})))
        elif pick < 0.10:
            do = draw.choice([it for it in TURNS if it != "import"])
            text = malformed(draw, {"do": do, **self.members(client, do)})
            self.put(f"{client} {draw.size(1, MOST_SERIAL)} {packed(text)}", {"code": 400, "refused": "malformed"}, "ask malformed")
            self.lines[-1] = (self.lines[-1][0], "400 " + self.lines[-1][1][4:])
        elif pick < 0.15:
            self.accounts(self.one_of(self.books.batches), self.one_of(self.books.products))
        else:
            do = "answer" if pick < 0.75 and self.books.running(client) else draw.choices(list(TURNS), list(TURNS.values()))[0]
            self.ask(client, do, **self.members(client, do))

    def release_all(self, client: str) -> None:
        """Releases all numbers of the client with the largest number. Then repeats the release, sends an earlier request late, and sends a new one."""
        members = {"upto": MOST_SERIAL - 1}
        last = Sent(client, MOST_SERIAL, "release", members, spelt_json(self.draw, {"do": "release", **members}))
        earlier = [sent for sent in self.sent if sent.client == client]
        for sent in (last, last, self.draw.choice(earlier or [last])):
            self.send(sent)
        self.ask(client, "reset")

    def case(self, title: str) -> Case:
        COUNTS.update(self.labels)
        text = "".join(f"{ask}\n{answer_of(wanted)}" for ask, wanted in self.lines)
        return Case("exchange", f"== {title}\n{text}", len(self.lines))

    def script(self) -> tuple[str, str]:
        """Returns the same requests as a script for a drill, whose only client is the office, and the expected output."""
        asks = "".join(ask.replace("import office ", "import ", 1) + "\n" for ask, _ in self.lines)
        return asks, "".join(wanted + "\n" * (not wanted.endswith("\n")) for _, wanted in self.lines)

    def drill(self, title: str) -> Case:
        COUNTS.update(self.labels)
        asks, printed = self.script()
        return Case("drill", f"== {title}\n{asks}{answer_of(printed)}", len(self.lines))


def answer_of(wanted: str) -> str:
    return "".join(f"  {line}\n" for line in wanted.splitlines())


def packed_lines(raw: bytes) -> str:
    return "".join(packed(line) + "\n" for line in raw.decode("latin-1").splitlines())


def import_plan(draw: Draw, product: Product, shape: Shape = SMALL) -> Plan:
    """Returns a batch whose lines can be part of a file of exchanges."""
    kind = draw.choice([it for it in FAULTS if it != 37 or product.check]) if draw.chance(0.25) else None
    rows = some_rows(draw, product, shape)
    lines, row = with_fault(draw, kind, product, rows) if kind else (lines_of(draw, rows, True), 0)
    if not all(line.isascii() and line.isprintable() and line[:1] not in " #=." for line in lines):
        return import_plan(draw, product, shape)
    return Plan(product, text_of(lines), (kind, row) if kind else None, None if kind else rows)


def talk_of(draw: Draw, clients: list[str], steps: int) -> Talk:
    """Creates some products with a lot and a batch each, and then takes `steps` steps of all kinds."""
    talk = Talk(draw, clients)
    for _ in range(draw.randint(1, 3)):
        for do in ("product", "lot", "import"):
            talk.ask(draw.choice(clients), do, **talk.members("", do))
    for _ in range(steps):
        talk.step()
    if talk.last < MOST_SERIAL and draw.chance(0.3):
        talk.release_all(draw.choice(clients))
    return talk


def exchange_cases(draw: Draw, count: int) -> list[Case]:
    cases: list[Case] = []
    while (left := count - sum(case.count for case in cases)) > 0:
        clients = draw.names(draw.randint(1, 4)) + ["office"] if draw.chance(0.7) else ["office"]
        cases.append(talk_of(draw, clients, min(draw.size(5, 120), left)).case(f"exchanges {len(cases)}"))
    return cases


# Exchanges that are long in one respect.


def drive(talk: Talk, client: str, batch: str, blank: int, most: int = 10_000) -> None:
    """Makes a card, up to `most` status words."""
    reply = talk.ask(client, "open", batch=batch, blank=blank)
    while reply.get("result") == "command" and most > 0:
        reply = talk.ask(client, "answer", session=reply["session"], index=reply["index"], sw="9000")
        most -= 1


def stocked(draw: Draw, product: Product, plan: Plan, first: int, batch: str = "B1", code: str = "P1") -> Talk:
    """Creates a batch with blanks for its records."""
    measured(plan)
    talk = Talk(draw, ["m1"])
    talk.ask("office", "product", product=code, **product._asdict())
    talk.ask("office", "lot", lot="L1", product=code, first=first, count=2000)
    talk.ask("office", "import", batch=batch, product=code, plan=plan)
    return talk


def long_report(draw: Draw, client: str, made: int, withdrawn: int) -> Talk:
    """Returns an exchange with the maximum number of records and the longest names. `made` of them are made on blanks with the longest serials, and
    `withdrawn` are withdrawn."""
    names = draw.names_of_32(MOST_RECORDS)
    product, batch, code = Product(255, 0, False), *draw.names_of_32(2)
    rows = [Row(name, b"A0000", 1, 0, 0, 0x8000, b"") for name in names]
    talk = stocked(draw, product, Plan(product, text_of(lines_of(draw, rows)), None, rows), MOST_SERIAL - 1999, batch, code)
    for k in range(made):
        drive(talk, client, batch, MOST_SERIAL - k)
    for name in names[made:made + withdrawn]:
        talk.ask("office", "withdraw", batch=batch, record=name)
    talk.accounts(batch, code)
    return talk


def long_file(draw: Draw, size: int) -> Talk:
    product = some_product(draw)
    lines, rows = whole_file(draw, product, size)
    talk = stocked(draw, product, Plan(product, text_of(lines), None, rows), 0)
    drive(talk, "m1", "B1", 7, 2)
    talk.ask("office", "import", batch="B1", product="P1", plan=talk.books.batches["B1"].plan)
    talk.accounts("B1", "P1")
    return talk


def long_session(draw: Draw, product: Product, rows: list[Row], client: str = "m1") -> Talk:
    """Makes the first two records of a batch completely."""
    plan = Plan(product, text_of(lines_of(draw, rows)), None, rows)
    talk = stocked(draw, product, plan, 10)
    for k in range(min(2, len(by_record(rows)))):
        drive(talk, client, "B1", 10 + k)
    talk.accounts("B1", "P1")
    return talk


def long_sessions(draw: Draw) -> list[Talk]:
    """Returns exchanges with applications of the maximum number of blocks, in one segment and in several, with many applications, and with many
    ranks."""
    talks = []
    for most in (16, 17, 255, draw.randint(18, 254)):
        product = some_product(draw)._replace(max=most)
        for rows in (1, draw.randint(2, 9)):
            talks.append(long_session(draw, product, application(draw, product, "R1", b"A0000", rows, 400, True)))
        for shape in (Shape(1, (1, 2), (10, 40), (1, 3), 60), Shape(1, (1, 1), (1, 1), (200, 999), 9)):
            talks.append(long_session(draw, product, some_rows(draw, product, shape)))
    return talks


def longest_session(draw: Draw, client: str) -> Talk:
    """Makes a card with the maximum number of applications."""
    return long_session(draw, Product(255, 0, False), most_applications(draw), client)


def long_faults(draw: Draw) -> Talk:
    """Imports files with too many rows and with too many records."""
    talk = talk_of(draw, ["office"], 5)
    talk.ask("office", "product", product="P1", max=255, low=0, check=True)
    for kind in SELDOM * 2:
        lines, row = with_fault(draw, kind, Product(255, 0, True), [])
        talk.ask("office", "import", batch=draw.name(), product="P1", plan=Plan(Product(255, 0, True), text_of(lines), (kind, row), None))
    return talk


def long_bodies(draw: Draw) -> Talk:
    """Sends requests of each kind with as many spaces as a body may have."""
    talk = talk_of(draw, ["office", "m1"], 20)
    for do in TURNS:
        if do != "import":
            members = talk.members("m1", do)
            text = dumped({"do": do, **members})
            size = draw.choice((MOST_FILE, draw.size(1000, MOST_FILE), draw.randint(1_000_000, MOST_FILE)))
            largest(bytes_of_an_ask=size)
            talk.ask("m1", do, text[:-1] + " " * (size - len(text)) + "}", **members)
            talk.send(talk.sent[-1])
    return talk


def long_releases(draw: Draw) -> Talk:
    """Sends many requests of three clients, which release more and more numbers."""
    clients = draw.names(3)
    talk = talk_of(draw, clients, 20)
    for _ in range(600):
        client, do = draw.choice(clients), draw.choice(("reset", "discard"))
        talk.ask(client, do, **talk.members(client, do))
    for client in clients:
        for upto in sorted(number for its, number in talk.books.kept if its == client)[::40]:
            talk.ask(client, "release", upto=upto)
            talk.send(draw.choice(talk.sent))
        talk.release_all(client)
    return talk


def many_things(draw: Draw, products: int, lots: int, batches: int) -> Talk:
    talk = Talk(draw, ["office"])
    for k in range(products):
        talk.ask("office", "product", product=f"P{k}", max=16 + k % 240, low=k % 32, check=False)
    for k in range(lots):
        talk.ask("office", "lot", lot=f"L{k}", product=f"P{k % 3}", first=1000 * k, count=1000 if k % 7 else 1)
    rows = [Row("R1", b"A0000", 1, 0, 0, 0x8000, b"")]
    for k in range(batches):
        product = Product(16 + k % 3, k % 3, False)
        plan = Plan(product, text_of(lines_of(draw, rows)), None, rows)
        talk.ask("office", "import", batch=f"B{k}", product=f"P{k % 3}", plan=plan)
    for k in range(0, batches, 97):
        drive(talk, "m1", f"B{k}", 1000 * k)
    talk.accounts("B1", "P1")
    largest(products=len(talk.books.products), lots=len(talk.books.lots), batches=len(talk.books.batches))
    return talk


def long_talks(draw: Draw) -> list[Talk]:
    return [
        long_report(draw, "m1", 8, 1000),
        many_things(draw, 260, 4100, 4100),
        *(long_file(draw, size) for size in (MOST_FILE, MOST_FILE, draw.randint(1_000_001, MOST_FILE), draw.size(65_537, 1_000_000))),
        *long_sessions(draw),
        *(long_bodies(draw) for _ in range(3)),
        long_faults(draw),
        long_releases(draw),
    ]
