"""Returns the text of a batch sheet in lines: as an HTML page shows it, and as plain SQL predicts it."""
import hashlib
import html.parser
import sqlite3

TAGS = {"html", "head", "meta", "title", "style", "body", "h1", "h2", "p", "div", "table", "thead", "tr", "th", "td", "code"}
SHOWN = "title", "h1", "h2", "p", "code"
STATES = "waiting", "running", "failed", "withdrawn", "good"
ACCOUNT = "records", *STATES, "sessions", "spoiled"
CARD = "record", "session", "machine", "serial", "state", "words", "last"
BLANK = "serial", "lot", "state", "record"
CHARGED = """SELECT blank.serial, blank.lot, CASE session.state WHEN 0 THEN 'running' WHEN 1 THEN 'good' ELSE 'spoiled' END, record.name FROM blank
    JOIN session ON session.serial = blank.serial AND blank.kind = 0 JOIN batch ON batch.id = session.batch
    JOIN record ON record.batch = session.batch AND record.place = session.place WHERE batch.name = ? ORDER BY blank.serial"""
ITS = "FROM session WHERE session.batch = record.batch AND session.place = record.place"
RECORDS = f"""SELECT record.name, record.state, (SELECT count(*) {ITS}), (SELECT serial {ITS} AND session.state = 1) FROM record
    JOIN batch ON batch.id = record.batch WHERE batch.name = ? ORDER BY record.place"""


class Page(html.parser.HTMLParser):
    """The lines that a page shows: its headings and paragraphs, the parts of its bar, and the rows of its tables, each after its class."""

    def __init__(self, text: str) -> None:
        super().__init__()
        self.lines: list[str] = []
        self.cells: list[str] = []
        self.text = ""
        self.feed(text)
        self.close()

    def handle_starttag(self, tag: str, attrs: list[tuple[str, str | None]]) -> None:
        its = dict(attrs)
        if tag not in TAGS or not its.keys() <= {"lang", "charset", "class", "style"}:
            self.lines.append(f"<{tag} {its}>")
        if tag == "tr":
            self.cells = [str(its.get("class", "heads"))]
        if tag == "div" and "style" in its:
            self.lines.append(f"{its['class']} {its['style']}")
        self.text = ""

    def handle_data(self, data: str) -> None:
        self.text += data

    def handle_endtag(self, tag: str) -> None:
        if tag in ("th", "td"):
            self.cells.append(self.text)
        if tag == "tr":
            self.lines.append(" ".join(self.cells))
        if tag in SHOWN:
            self.lines.append(f"{tag} {self.text}")
        self.text = ""


def page_lines(conn: sqlite3.Connection, batch: tuple, cards: list[tuple]) -> list[str]:
    """Returns the expected lines of the sheet, from the line of the batch in `list` and its lines in `cards`."""
    _, name, product, state, *account = batch
    raw, = conn.execute("SELECT raw FROM batch WHERE name = ?", (name,)).fetchone()
    bar = [f"{part} flex:{number} 0 0" for part, number in zip(STATES, account[1:6])]
    return [f"title Batch {name}", f"h1 Batch {name}", f"p Product {product}, {state}", *bar,
            row("heads", ACCOUNT), row("sums", account),
            "h2 Cards", row("heads", CARD), *(row(its[5], its[1:]) for its in cards),
            "h2 Blanks", row("heads", BLANK), *(row(its[2], its) for its in conn.execute(CHARGED, (name,))),
            f"code {hashlib.sha256(raw).hexdigest()}", "p ", f"code {hashlib.sha256(report(conn, batch).encode()).hexdigest()}", "p "]


def report(conn: sqlite3.Connection, batch: tuple) -> str:
    """Returns the close report of a batch, from its line in `list` and the rows of its records and sessions."""
    _, name, product, state, *account = batch
    records = [f"record {record} {STATES[stands]} {sessions} {'-' if serial is None else serial}"
               for record, stands, sessions, serial in conn.execute(RECORDS, (name,))]
    totals = [f"{label:<9} {number:>10}" for label, number in zip(ACCOUNT, account, strict=True)]
    return "".join(f"{line}\n" for line in (f"batch {name}", f"product {product}", f"state {state}", *records, *totals))


def row(kind: str, cells: tuple | list) -> str:
    return " ".join([kind, *("-" if cell is None else str(cell) for cell in cells)])
