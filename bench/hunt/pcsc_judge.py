"""Judges the cards of `bench/run pcsc` by what they received, and the accounts by the cards."""
import copy
import dataclasses
import subprocess
from collections import Counter
from typing import Any, Callable, Iterator, NamedTuple, Optional

from card import MAGAZINE, GOOD, REJECTS, Card, Event

SUMS = "lots", "total", "free", "good", "running", "spoiled", "discarded"


class Session(NamedTuple):
    """A line of `shopbook cards`."""

    record: str
    state: str
    words: int
    last: str


@dataclasses.dataclass
class Evidence:
    """The evidence when all records are good. `rows` has the groupings of each record by
    application, read from the batch file without `persod`. `strays` are the serials that the
    server must refuse, and `unread` those of cards that no reader can read."""

    cards: list[Card]
    rows: dict[str, dict[str, list[str]]]
    plans: dict[str, list[str]]
    strays: set[int]
    unread: set[int]
    discarded: set[int]
    total: int
    sessions: dict[int, Session]
    blanks: dict[int, tuple[str, str]]
    report: dict[str, int]
    accounts: list[dict[str, int]]
    batch: dict[str, int]


# ---- reading


def rows_of(text: str) -> dict[str, dict[str, list[str]]]:
    found: dict[str, dict[str, list[str]]] = {}
    for line in text.splitlines()[1:]:
        record, aid, _, _, _, coded = line.split(",")
        found.setdefault(record, {}).setdefault(aid, []).append(coded)
    return {record: _sorted(groups) for record, groups in found.items()}


def plans_of(program: str, text: str) -> dict[str, list[str]]:
    words = [program, "plan", "--max", "255", "--check"]
    printed = subprocess.run(words, input=text, capture_output=True, text=True, check=True).stdout
    plans: dict[str, list[str]] = {}
    for line in printed.splitlines():
        if line.startswith("record "):
            commands = plans.setdefault(line.split(" ")[1], [])
        else:
            commands.append(line)
    return plans


def sessions_of(lines: list[list[str]]) -> dict[int, Session]:
    rows = [line for line in lines if line[0] == "card" and line[2] != "-"]
    return {int(row[4]): Session(row[1], row[5], int(row[6]), row[7]) for row in rows}


def blanks_of(lines: list[list[str]]) -> tuple[dict[int, tuple[str, str]], dict[str, int]]:
    """Returns the state and the record of each charged blank, and the sums, from `shopbook blanks`."""
    blanks = {int(line[1]): (line[3], line[4]) for line in lines if line[0] == "blank"}
    [sums] = [map(int, line[1:]) for line in lines if line[0] == "sums"]
    return blanks, dict(zip(SUMS, sums))


def _sorted(groups: dict[str, list[str]]) -> dict[str, list[str]]:
    return {aid: sorted(found) for aid, found in groups.items()}


def _coded(identifier: str, data: str) -> str:
    size = len(data) // 2
    return identifier + (f"{size:02X}" if size < 255 else f"FF{size:04X}") + data


def customer(card: Card, rows: dict[str, dict[str, list[str]]]) -> Optional[str]:
    """Returns the record whose groupings a card has, each once, in the applications of the record."""
    groups = [(aid, [_coded(*grouping) for grouping in found]) for aid, found in card.received]
    if len(dict(groups)) != len(groups):
        return None
    mine = _sorted(dict(groups))
    return next((record for record, theirs in rows.items() if theirs == mine), None)


# ---- one card


def _commands(card: Card) -> list[Event]:
    return [event for event in card.events if event.kind == "command"]


def _trays(card: Card) -> list[str]:
    return [event.what for event in card.events if event.kind == "tray"]


def tray_of(card: Card) -> str:
    """Returns the place of a card at the end. A card that was never moved is in its magazine."""
    return (_trays(card) or [MAGAZINE])[-1]


def _of_commands(card: Card) -> Iterator[str]:
    """Yields faults of a card that received commands, whichever record they belong to."""
    kinds = [event.kind for event in card.events]
    first = kinds.index("command")
    last = len(kinds) - kinds[::-1].index("command")
    if {*kinds[first:last]} != {"command"}:
        yield "its power changed or it was moved between two commands"
    if any(len(event.answer or "") != 4 for event in _commands(card)[:-1]):
        yield "it got another command after an answer without a status word"


def _of_session(card: Card, session: Session, evidence: Evidence) -> Iterator[str]:
    commands, plan = _commands(card), evidence.plans[session.record]
    received = [event.what for event in commands]
    if received != plan[: len(received)]:
        yield "it received commands that aren't the first ones of its plan"
    if tray_of(card) != (GOOD if session.state == "good" else REJECTS):
        yield f"its session is {session.state}"
    least = len(plan) if session.state == "good" else max(len(commands) - 1, 0)
    if not least <= session.words <= len(commands):
        yield f"the server has {session.words} status words, but it received {len(commands)} commands"
    elif session.words and session.last != commands[session.words - 1].answer:
        yield "the server has another last status word"
    if session.state == "good" and len(received) != len(plan):
        yield "it is good, but didn't receive the whole plan"
    if session.state == "good" and customer(card, evidence.rows) != session.record:
        yield "it is good, but doesn't have the data of its record"


def _without_session(card: Card, evidence: Evidence) -> Iterator[str]:
    tray, is_stray = tray_of(card), card.serial in evidence.strays | evidence.unread
    if _commands(card):
        yield "it received a command, but has no session"
    if tray == GOOD or tray == REJECTS and not is_stray:
        yield "it has no session"


def of_card(card: Card, evidence: Evidence) -> Iterator[str]:
    """Yields all faults of a card."""
    if any(tray != MAGAZINE for tray in _trays(card)[:-1]):
        yield "it was taken out of its last tray"
    if _commands(card):
        yield from _of_commands(card)
    if session := evidence.sessions.get(card.serial):
        yield from _of_session(card, session, evidence)
    else:
        yield from _without_session(card, evidence)


# ---- all cards


def of_records(evidence: Evidence) -> Iterator[str]:
    """Checks that each record has exactly one good card, and that the report names it."""
    good = [card for card in evidence.cards if tray_of(card) == GOOD]
    customers = Counter(customer(card, evidence.rows) for card in good)
    for record in evidence.rows:
        if customers[record] != 1:
            yield f"{record} has {customers[record]} good cards"
        serial = evidence.report.get(record)
        if (serial, record) not in [(card.serial, customer(card, evidence.rows)) for card in good]:
            yield f"{record}: the report names blank {serial}"


def of_blanks(evidence: Evidence) -> Iterator[str]:
    """Checks that each charged blank is a card in a tray or was discarded, and that all sums agree."""
    trays = {GOOD: "good", REJECTS: "spoiled"}
    wanted = {
        card.serial: (trays[tray_of(card)], evidence.sessions[card.serial].record)
        for card in evidence.cards
        if card.serial in evidence.sessions and tray_of(card) in trays
    }
    wanted.update({serial: ("discarded", "-") for serial in evidence.discarded})
    for serial in sorted({*wanted} | {*evidence.blanks}):
        if wanted.get(serial) != evidence.blanks.get(serial):
            yield f"blank {serial}: {wanted.get(serial)}, and {evidence.blanks.get(serial)}"
    counts = Counter(state for state, _ in wanted.values())
    sums = {state: counts[state] for state in ("good", "running", "spoiled", "discarded")}
    sums |= {"total": evidence.total, "free": evidence.total - sum(counts.values())}
    for account in evidence.accounts:
        if any(account[name] != count for name, count in sums.items()):
            yield f"the sums are {account}, expected {sums}"
    records = {"records": len(evidence.rows), "good": counts["good"], "spoiled": counts["spoiled"]}
    if any(evidence.batch[name] != count for name, count in records.items()):
        yield f"the account of the batch is {evidence.batch}, expected {records}"


def judged(evidence: Evidence) -> list[str]:
    """Returns all faults."""
    found = [
        f"card {card.serial}: {fault}"
        for card in evidence.cards
        for fault in of_card(card, evidence)
    ]
    return [*found, *of_records(evidence), *of_blanks(evidence)]


# ---- the judge


def _good_cards(evidence: Evidence) -> list[Card]:
    return [card for card in evidence.cards if tray_of(card) == GOOD]


def _place(card: Card, count: int) -> int:
    """Returns the position of a command among the events."""
    return [place for place, event in enumerate(card.events) if event.kind == "command"][count]


def _swap(evidence: Evidence) -> None:
    """Gives the data and the commands of one good card to another, so its record has two good
    cards."""
    one, other = _good_cards(evidence)[:2]
    other.received, other.events = one.received, one.events


def _to_tray(card: Card, tray: str) -> None:
    card.events[-1] = Event("tray", tray)


def _tray_of_spoiled(evidence: Evidence) -> None:
    spoiled = [card for card in evidence.cards if tray_of(card) == REJECTS and _commands(card)]
    place = max(place for place, event in enumerate(spoiled[0].events) if event.kind == "tray")
    spoiled[0].events[place] = Event("tray", GOOD)


def _other_byte(card: Card) -> None:
    place = _place(card, 1)
    event = card.events[place]
    other = f"{int(event.what[-2:], 16) ^ 1:02X}"
    card.events[place] = event._replace(what=event.what[:-2] + other)


def _other_data(card: Card) -> None:
    aid, found = card.received[-1]
    card.received[-1] = (aid, [*found[:-1], (found[-1][0], found[-1][1] + "00")])


def _other_word(evidence: Evidence) -> None:
    serial = _good_cards(evidence)[0].serial
    evidence.sessions[serial] = evidence.sessions[serial]._replace(last="6199")


def _twice(card: Card) -> None:
    place = _place(card, 1)
    card.events.insert(place, card.events[place])


def _left_out(card: Card, count: int) -> None:
    card.events.pop(_place(card, count))


def _added(card: Card, count: int, event: Event) -> None:
    card.events.insert(_place(card, count), event)


GET_RESPONSE = Event("command", "00C0000010", "9000")
IN_GOOD_CARD: dict[str, Callable[[Card], Any]] = {
    "a command twice": _twice,
    "a command left out": lambda card: _left_out(card, 1),
    "the last command left out": lambda card: _left_out(card, -1),
    "another byte": _other_byte,
    "other data": _other_data,
    "a change of power": lambda card: _added(card, 1, Event("power", "reset")),
    "GET RESPONSE": lambda card: _added(card, -1, GET_RESPONSE),
    "a good card among the rejects": lambda card: _to_tray(card, REJECTS),
}
PLANTED: dict[str, Callable[[Evidence], Any]] = {
    "a spoiled card among the good ones": _tray_of_spoiled,
    "two good cards of a record": _swap,
    "another status word": _other_word,
    "a charged blank that is missing": lambda evidence: evidence.blanks.popitem(),
    "a wrong sum": lambda evidence: evidence.accounts[0].update(free=-1),
    **{
        name: lambda evidence, plant=plant: plant(_good_cards(evidence)[0])
        for name, plant in IN_GOOD_CARD.items()
    },
}


def overlooked(evidence: Evidence) -> list[str]:
    """Returns the planted faults that the judge doesn't find in evidence without other faults."""
    missed = []
    for name, plant in PLANTED.items():
        changed = copy.deepcopy(evidence)
        plant(changed)
        if not judged(changed):
            missed.append(name)
    return missed
