"""Draws messages of every shape (heads, targets and bodies, valid and with a fault), and the expected responses."""
import re
from typing import Callable, NamedTuple

from shapes_batches import SMALL, measured, some_plan
from shapes_draw import COUNTS, MOST_FILE, MOST_HEAD, MOST_SERIAL, Case, Draw, changed, largest, spelt
from shapes_exchanges import TURNS, Sent, Talk, answer_of, dumped, import_plan, malformed, spelt_json

NO_ROUTES = ("*", "http://localhost/batch/B1", "batch/B1", "/", "//", "/batch", "/batch/", "/batch//report", "/batch/B1/", "/batch/B1/reports",
             "/c", "/c/m1", "/c/m1/", "/c/m1/1/", "/c/m1/1/batch/B1", "/c/m1/1/batch/B1/P1/x", "/blanks", "/blanks/", "/blanks/P1/P1")
BAD_NUMBERS = ("0", "01", "-1", "+1", "1.0", "a", "1" + "0" * 18, "9" * 19, "9" * 100)
BAD_LINES = ("Bad Name: x", "No-Colon", ": x", "X: \0", "X: \x7F", " X: y", "(X): y")
HEAD_FAULTS = ("version", "lf", "lines", "grammar", "transfer", "twice", "length", "large", "endless", "edge", "short", "cut")
BAD_LENGTHS = ("", "+1", "-1", "1 2", "0x10", "1.0", "a", "1,1")
NAMED = {"400": "400 malformed", "404": "404 no-route", "413": "413 too-large", "431": "431 head-too-large"}


class Asking(NamedTuple):
    """The content of a message, and the response if its head is valid."""

    method: str
    target: str
    body: bytes
    answer: Callable[[], str]


def bad_name(draw: Draw) -> str:
    return draw.choice(("a.b", "B1?x=1", "B%31", "~", "a,b", "x" * draw.size(33, 500)))


def decided(talk: Talk, client: str, number: int, do: str, members: dict, text: str) -> str:
    talk.send(Sent(client, number, do, members, text))
    return talk.lines[-1][1]


def asking_request(draw: Draw, talk: Talk, do: str) -> Asking:
    client = draw.choice(talk.clients)
    members = talk.members(client, do) if do != "import" else {}
    number = talk.number(client, members.get("upto", MOST_SERIAL))
    target = f"/c/{client}/{number}"
    if do == "import":
        product = talk.one_of(talk.books.products)
        made = talk.books.products.get(product)
        plan = some_plan(draw, SMALL if draw.chance(0.5) else None, 0.5)
        plan = plan if made in (None, plan.product) else import_plan(draw, made)
        measured(plan)
        batch = draw.name()
        text = f"{batch}/{product}/" + plan.raw.decode("latin-1")
        members = {"batch": batch, "product": product, "plan": plan}
        return Asking("POST", f"{target}/batch/{batch}/{product}", plan.raw, lambda: decided(talk, client, number, do, members, text))
    if draw.chance(0.2):
        text = draw.choice((malformed(draw, {"do": do, **members}), "", "\xEF\xBB\xBF" + dumped({"do": do, **members}), '{"do":"re\xFFset"}'))
        return Asking("POST", target, text.encode("latin-1"), lambda: NAMED["400"])
    text = spelt_json(draw, {"do": do, **members})
    text += draw.choice((" ", "\t", "\r\n", "\n")) * (draw.size(0, 20) if draw.chance(0.98) else draw.size(1000, (MOST_FILE - len(text)) // 2))
    largest(bytes_of_an_ask=len(text))
    return Asking("POST", target, text.encode(), lambda: decided(talk, client, number, do, members, text))


def asking(draw: Draw, talk: Talk) -> Asking:
    pick, name = draw.random(), draw.choice((talk.one_of(talk.books.batches), talk.one_of(talk.books.products)))
    gets = [f"/batch/{name}", f"/blanks/{name}", f"/batch/{name}/report"]
    posts = [f"/c/{draw.name()}/{draw.size(1, MOST_SERIAL)}", f"/c/{draw.name()}/{draw.size(1, MOST_SERIAL)}/batch/{draw.name()}/{draw.name()}"]
    body = draw.filled(draw.size(0, 300) if draw.chance(0.97) else draw.size(0, MOST_FILE)) if draw.chance(0.3) else b""
    if pick < 0.6:
        return asking_request(draw, talk, draw.choices(list(TURNS), list(TURNS.values()))[0])
    if pick < 0.75:
        place = draw.randrange(3)
        return Asking("GET", gets[place], body, lambda: account(talk, name, place))
    if pick < 0.84:
        return Asking(draw.choice(("GET", "POST", "PUT")), draw.choice(NO_ROUTES), body, lambda: NAMED["404"])
    if pick < 0.92:
        allowed, target = draw.choice([("GET", get) for get in gets] + [("POST", post) for post in posts])
        others = ["DELETE", "HEAD", "PUT", "OPTIONS", "get", "post", "M-SEARCH", "X" * draw.size(1, 300), {"GET": "POST", "POST": "GET"}[allowed]]
        return Asking(draw.choice(others), target, body, lambda: f"405 {allowed}")
    method, target = draw.choice((
        ("GET", f"/batch/{bad_name(draw)}"), ("GET", f"/batch/{bad_name(draw)}/report"), ("GET", f"/blanks/{bad_name(draw)}"),
        ("POST", f"/c/{bad_name(draw)}/1"), ("POST", f"/c/m1/{draw.choice(BAD_NUMBERS)}"), ("POST", f"/c/m1/1/batch/{bad_name(draw)}/P1"),
    ))
    return Asking(method, target, b'{"do":"reset"}', lambda: NAMED["400"])


def account(talk: Talk, name: str, place: int) -> str:
    product = name if place == 1 else ""
    talk.accounts(name, product)
    return talk.lines[-3:][place][1]


def headers(draw: Draw, body: bytes, fault: str) -> list[str]:
    made = ["Host: localhost"] * draw.chance(0.9)
    most = 200 if draw.chance(0.97) else MOST_HEAD
    made += [f"X-{draw.name()}: {'y' * draw.size(0, most)}" for _ in range(draw.size(0, 30) if draw.chance(0.3) else 1)]
    length = {"length": draw.choice(BAD_LENGTHS), "large": str(draw.choice((MOST_FILE + 1, 10**draw.randint(8, 40))))}.get(fault, f"{len(body)}")
    if body or length != "0" or fault == "twice" or draw.chance(0.5):
        gap = " " * draw.size(0, 5) + "\t" * draw.randrange(2)
        length = length.zfill(draw.size(1, 60)) if length.isdigit() and draw.chance(0.2) else length
        made += [f"{draw.choice(('Content-Length', 'content-length', 'CONTENT-LENGTH'))}:{gap}{length}{gap}"] * (2 if fault == "twice" else 1)
    made += {"lf": [f"X: a{draw.choice('b ')}\nc"], "lines": ["X: y"] * draw.size(33, 900), "grammar": [draw.choice(BAD_LINES)],
             "transfer": ["Transfer-Encoding: " + draw.choice(("chunked", "identity", ""))],
             "endless": ["X: " + "y" * draw.size(MOST_HEAD, 99_999)]}.get(fault, [])
    draw.shuffle(made)
    return made


def message(draw: Draw, it: Asking, fault: str) -> tuple[bytes, str]:
    """Returns a message and its response. The checks are in the order of docs/PROTOCOL.md."""
    version = draw.choice(("HTTP/2.0", "HTTP/1.2", "http/1.1", "HTTP")) if fault == "version" else f"HTTP/1.{draw.randrange(2)}"
    lines = [f"{it.method} {it.target} {version}", *headers(draw, it.body, fault)]
    if fault == "edge":
        room = MOST_HEAD + draw.choice((0, 0, 1)) - len("\r\n".join([*lines, "X: ", "", ""]))
        lines.insert(1, "X: " + "y" * max(room, 0))
    head = "\r\n" * draw.chance(0.05) + "\r\n".join(lines) + "\r\n\r\n"
    raw = head.encode("latin-1") + it.body
    raw = raw[:draw.randrange(len(raw))] if fault == "cut" else raw[:-1] if fault == "short" and it.body else raw
    end = raw.find(b"\r\n\r\n") + 4
    largest(bytes_of_a_head=end if 4 <= end <= MOST_HEAD else 0, bytes_of_a_body=len(it.body))
    if not 4 <= end <= MOST_HEAD:
        return raw, NAMED["431"] if len(raw) >= MOST_HEAD else "nothing"
    pairs = raw[:end].count(b"\r\n")
    if re.search(rb"(?<!\r)\n", raw[:end]) or pairs > 34:
        return raw, NAMED["400"] if re.search(rb"(?<!\r)\n", raw[:end]) else NAMED["431"]
    largest(lines_of_a_head=pairs - 2)
    if fault in ("version", "grammar", "transfer", "twice", "length"):
        return raw, NAMED["400"]
    if fault == "large":
        return raw, NAMED["413"]
    return raw, "nothing" if len(raw) < end + len(it.body) else it.answer()


def message_cases(draw: Draw, count: int) -> list[Case]:
    cases: list[Case] = []
    while (left := count - sum(case.count for case in cases)) > 0:
        talk, made = Talk(draw, draw.names(2)), []
        stock = ["import", "lot", "product"] if draw.chance(0.7) else []
        is_any, most = draw.chance(0.15), min(draw.size(1, 25), left)
        while len(made) < most:
            it = asking_request(draw, talk, stock.pop()) if stock else asking(draw, talk)
            raw, wanted = message(draw, it, draw.choice(HEAD_FAULTS) if not stock and draw.chance(0.3) else "")
            raw, wanted = (changed(draw, raw, 2 * MOST_FILE), "any") if is_any else (raw, wanted)
            if raw:
                made.append("\n".join(spelt(raw)) + "\n" + answer_of(wanted))
                COUNTS["message, " + (wanted[:3] if wanted[:3] in ("200", "409") else wanted)] += 1
        cases.append(Case("message", f"== messages {len(cases)}\n{''.join(made)}", most))
    return cases
