"""A small model of the server: the replies to each request and account, as docs/PROTOCOL.md describes."""
import functools
from collections import Counter

from row_groups import by_record
from shapes_batches import NAMES, Command, Plan, Product, Row, commands_of
from shapes_draw import largest

REFUSED = {
    **NAMES, 51: "product-differs", 52: "product-unknown", 53: "lot-differs", 54: "serials-overlap", 55: "batch-differs", 56: "batch-unknown",
    57: "batch-closed", 58: "blank-unknown", 59: "blank-of-other-product", 60: "blank-used", 61: "machine-busy", 62: "nothing-waiting",
    63: "session-unknown", 64: "not-yours", 65: "session-ended", 66: "out-of-turn", 67: "record-unknown", 68: "not-failed",
    69: "not-withdrawable", 70: "not-finished", 71: "limit", 72: "number-reused", 73: "number-released", 74: "release-too-far",
}
STATES = ("waiting", "running", "failed", "withdrawn", "good")


def refused(code: int, **more: int) -> dict:
    return {"code": code, "refused": REFUSED[code], **more}


class Session:
    def __init__(self, number: int, machine: str, batch: "Batch", record: "Record", blank: int) -> None:
        self.number, self.machine, self.batch, self.record, self.blank = number, machine, batch, record, blank
        self.words, self.state = 0, "running"


class Record:
    def __init__(self, name: str, rows: list[Row], product: Product) -> None:
        self.name, self.rows, self.product = name, rows, product
        self.sessions: list[Session] = []
        self.remakes, self.is_withdrawn = 0, False

    @functools.cached_property
    def commands(self) -> list[Command]:
        return commands_of(self.rows, self.product)

    def state(self) -> str:
        states = {session.state for session in self.sessions}
        if "good" in states or "running" in states:
            return "good" if "good" in states else "running"
        if self.is_withdrawn:
            return "withdrawn"
        return "failed" if self.remakes < len(self.sessions) else "waiting"


class Batch:
    def __init__(self, product: str, plan: Plan) -> None:
        self.product, self.plan, self.is_closed = product, plan, False
        self.records = {name: Record(name, rows, plan.product) for name, rows in by_record(plan.rows or []).items()}

    def waiting(self) -> Record | None:
        return next((record for record in self.records.values() if record.state() == "waiting"), None)

    def counts(self) -> Counter:
        return Counter(record.state() for record in self.records.values())

    def sessions(self) -> list[Session]:
        return [session for record in self.records.values() for session in record.sessions]


class Books:
    """Everything that was accepted. Each kind of request is a method that returns the members of the reply."""

    def __init__(self) -> None:
        self.products: dict[str, Product] = {}
        self.lots: dict[str, tuple[str, int, int]] = {}
        self.batches: dict[str, Batch] = {}
        self.all_sessions: list[Session] = []
        self.charged: dict[int, Session | None] = {}
        self.kept: dict[tuple[str, int], tuple[object, dict]] = {}
        self.marks: Counter = Counter()

    def arrive(self, client: str, number: int, ask: object, do: str, members: dict) -> dict:
        if number <= self.marks[client]:
            return refused(73, mark=self.marks[client])
        if (client, number) in self.kept:
            kept, reply = self.kept[client, number]
            return reply if kept == ask else refused(72)
        reply = self.release(client, number, **members) if do == "release" else getattr(self, "ask_" + do)(client, **members)
        self.kept[client, number] = ask, reply
        return reply

    def release(self, client: str, number: int, upto: int) -> dict:
        if upto >= number:
            return refused(74)
        self.marks[client] = max(self.marks[client], upto)
        largest(mark=self.marks[client])
        return {"mark": self.marks[client], "result": "released"}

    def running(self, client: str) -> Session | None:
        return next((it for it in self.all_sessions if it.machine == client and it.state == "running"), None)

    def product_of_blank(self, blank: int) -> str | None:
        return next((product for product, first, count in self.lots.values() if first <= blank < first + count), None)

    def ask_product(self, _client: str, product: str, max: int, low: int, check: bool) -> dict:
        values = Product(max, low, check)
        if product in self.products:
            return {"product": product, "result": "known"} if self.products[product] == values else refused(51)
        if len(self.products) >= 256:
            return refused(71)
        self.products[product] = values
        return {"product": product, "result": "created"}

    def ask_lot(self, _client: str, lot: str, product: str, first: int, count: int) -> dict:
        if lot in self.lots:
            return {"lot": lot, "result": "known"} if self.lots[lot] == (product, first, count) else refused(53)
        if product not in self.products:
            return refused(52)
        if any(first < its_first + its_count and its_first < first + count for _, its_first, its_count in self.lots.values()):
            return refused(54)
        if len(self.lots) >= 4096:
            return refused(71)
        self.lots[lot] = product, first, count
        return {"lot": lot, "result": "created"}

    def ask_import(self, _client: str, batch: str, product: str, plan: Plan) -> dict:
        result = "known"
        if batch in self.batches:
            if self.batches[batch].product != product or self.batches[batch].plan.raw != plan.raw:
                return refused(55)
        elif product not in self.products:
            return refused(52)
        elif len(self.batches) >= 4096:
            return refused(71)
        elif plan.fault:
            return refused(plan.fault[0], row=plan.fault[1])
        else:
            result = "created"
            self.batches[batch] = Batch(product, plan)
        its = self.batches[batch]
        return {"batch": batch, "records": len(its.records), "result": result, "rows": len(its.plan.rows or [])}

    def ask_open(self, client: str, batch: str, blank: int) -> dict:
        if batch not in self.batches or self.batches[batch].is_closed:
            return refused(57 if batch in self.batches else 56)
        if running := self.running(client):
            return refused(61, session=running.number)
        its, product = self.batches[batch], self.product_of_blank(blank)
        if product != its.product or blank in self.charged:
            return refused(58 if product is None else 59 if product != its.product else 60)
        if (record := its.waiting()) is None:
            return refused(62)
        session = Session(len(self.all_sessions) + 1, client, its, record, blank)
        self.all_sessions.append(session)
        record.sessions.append(session)
        self.charged[blank] = session
        return {"batch": batch, "blank": blank, "record": record.name, **self.next_command(session)}

    def next_command(self, session: Session) -> dict:
        text = session.record.commands[session.words].text
        largest(bytes_of_a_command=len(text) // 2, words_of_a_session=session.words)
        return {"command": text, "index": session.words, "result": "command", "session": session.number}

    def refusal(self, client: str, session: int) -> dict | None:
        if session > len(self.all_sessions):
            return refused(63)
        if self.all_sessions[session - 1].machine != client:
            return refused(64)
        return None if self.all_sessions[session - 1].state == "running" else refused(65)

    def ask_answer(self, client: str, session: int, index: int, sw: str) -> dict:
        if refusal := self.refusal(client, session):
            return refusal
        its = self.all_sessions[session - 1]
        if index != its.words:
            return refused(66)
        goes = sw == "9000" or sw[:2] == "61" or sw.upper() == "6A88" and its.record.commands[index].is_tolerant_end
        its.words += 1
        if goes and its.words < len(its.record.commands):
            return self.next_command(its)
        its.state = "good" if goes else "spoiled"
        return {"result": its.state, "session": session}

    def ask_abort(self, client: str, session: int) -> dict:
        if refusal := self.refusal(client, session):
            return refusal
        self.all_sessions[session - 1].state = "spoiled"
        return {"result": "spoiled", "session": session}

    def ask_reset(self, client: str) -> dict:
        running = self.running(client)
        if running:
            running.state = "spoiled"
        return {"result": "reset", "session": running.number if running else 0}

    def ask_discard(self, _client: str, blank: int) -> dict:
        if blank in self.charged or self.product_of_blank(blank) is None:
            return refused(60 if blank in self.charged else 58)
        self.charged[blank] = None
        return {"blank": blank, "result": "discarded"}

    def of_record(self, batch: str, record: str) -> dict | None:
        if batch not in self.batches or self.batches[batch].is_closed:
            return refused(57 if batch in self.batches else 56)
        return None if record in self.batches[batch].records else refused(67)

    def ask_remake(self, _client: str, batch: str, record: str) -> dict:
        if refusal := self.of_record(batch, record):
            return refusal
        its = self.batches[batch].records[record]
        if its.state() != "failed":
            return refused(68)
        its.remakes += 1
        return {"batch": batch, "record": record, "result": "waiting"}

    def ask_withdraw(self, _client: str, batch: str, record: str) -> dict:
        if refusal := self.of_record(batch, record):
            return refusal
        its = self.batches[batch].records[record]
        if its.state() not in ("waiting", "failed"):
            return refused(69)
        its.is_withdrawn = True
        return {"batch": batch, "record": record, "result": "withdrawn"}

    def ask_close(self, _client: str, batch: str) -> dict:
        if batch not in self.batches or self.batches[batch].is_closed:
            return refused(57 if batch in self.batches else 56)
        its = self.batches[batch]
        if set(its.counts()) - {"good", "withdrawn"}:
            return refused(70)
        its.is_closed = True
        return {"batch": batch, "result": "closed"}

    def batch_account(self, name: str) -> dict:
        if name not in self.batches:
            return refused(56)
        its = self.batches[name]
        sessions, counts = its.sessions(), its.counts()
        return {"batch": name, "closed": its.is_closed, "product": its.product, "records": len(its.records), "sessions": len(sessions),
                "spoiled": sum(it.state == "spoiled" for it in sessions), **{state: counts[state] for state in STATES}}

    def blanks_account(self, product: str) -> dict:
        if product not in self.products:
            return refused(52)
        lots = [lot for lot in self.lots.values() if lot[0] == product]
        states = Counter(its.state if its else "discarded" for blank, its in self.charged.items() if self.product_of_blank(blank) == product)
        total, charged = sum(count for _, _, count in lots), sum(states.values())
        return {"product": product, "lots": len(lots), "total": total, "charged": charged, "free": total - charged,
                **{state: states[state] for state in ("good", "running", "spoiled", "discarded")}}

    def report(self, name: str) -> str | None:
        if name not in self.batches:
            return None
        its = self.batches[name]
        lines = [f"batch {name}", f"product {its.product}", f"state {'closed' if its.is_closed else 'open'}"]
        for record in its.records.values():
            good = next((str(session.blank) for session in record.sessions if session.state == "good"), "-")
            lines.append(f"record {record.name} {record.state()} {len(record.sessions)} {good}")
        account = self.batch_account(name)
        lines += [f"{label:9} {account[label]:10}" for label in ("records", *STATES, "sessions", "spoiled")]
        text = "\n".join(lines) + "\n"
        largest(bytes_of_a_report=len(text))
        return text
