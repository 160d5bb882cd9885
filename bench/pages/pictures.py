#!/usr/bin/env python3
"""Draws the two pictures of ARCHITECTURE.md.

    bench/run pictures            writes docs/architecture.svg and docs/contracts.svg
    bench/run pictures --check    fails if a picture differs from the sources, for example if it has an arrow without an edge

edges.py supplies all arrows. This script has the positions of the boxes. In docs/architecture.svg an arrow points from a section of crates.txt
to a section that it uses. In docs/contracts.svg it points from a box to a box with names that the first one uses in its code, contracts or
definitions, directly or through names without a box. An arrow is left out if other arrows already lead there. The script also fails if an arrow
crosses a box, or if a text doesn't fit."""
from __future__ import annotations

import sys
from html import escape, unescape
from re import findall
from typing import NamedTuple

from edges import TOP, depends, reduced, sections

PAPER, INK, DIM, WHITE, OUTSIDE = "#fbfaf7", "#1c1c1c", "#5a5a5a", "#ffffff", "#f0ede4"
GREEN, BLUE, ORANGE = "#2f6f3e", "#1f5fa8", "#a04a12"

# A section of crates.txt: position, width and height, number of columns of crates, and purpose.
SECTIONS = {
    "Tests": (20, 20, 1060, 56, 7, "worked examples, and tests of faults"),
    "Programs": (20, 106, 1060, 56, 7, "arguments, streams, files, sockets, exit status"),
    "Tables and files": (20, 192, 1060, 56, 7, "server and drill over a database file"),
    "SQL": (20, 280, 290, 190, 2, "rows to a database and back"),
    "Rows": (20, 570, 290, 150, 2, "contents to rows of tables; audit"),
    "Auditors": (352, 628, 196, 92, 1, "lines and sheets from rows"),
    "Machine": (590, 280, 260, 92, 2, "feeder, feed, drill, and sockets"),
    "Server": (590, 402, 260, 74, 2, "one connection, a list of connections"),
    "Messages": (590, 506, 260, 92, 2, "bytes to requests and back"),
    "Repeated requests": (590, 628, 260, 92, 2, "each request number has one effect"),
    "Other stores": (892, 280, 188, 92, 1, "lists; a faulty device"),
    "Reference model": (20, 752, 1060, 56, 7, "a request to a reply and a change"),
    "Planning": (20, 838, 1060, 56, 8, "batch file to planned and printed commands"),
    "Rattle toolchain": (20, 924, 1060, 121, 8, "libraries that the crates use"),
}
# Functions and types: column, row and width in columns, crates, and what their contracts state. Definitions have a file of specs.
CONTRACTS = {
    "serve_over_tables": (0, 0, 2, "over_tables", "the main theorem with SqlStore; complete file at exit"),
    "serve_inputs": (2, 0, 1, "drill", "the same with ListStore"),
    "serve_and_report": (0, 1, 2, "server_run", "the main theorem, the first and last line, event lines"),
    "serve_all": (2, 1, 1, "server", "the main theorem"),
    "serve_one, serve_by": (0, 2, 3, "server", "one connection: reads a message, handles its request, writes the response"),
    "report_of, batch_counts": (0, 3, 1, "reports", "reports and accounts"),
    "read_meaning": (1, 3, 1, "http_requests", "the meaning of the bytes"),
    "handle": (2, 3, 1, "reply_store", "one effect per number"),
    "read_message": (1, 4, 1, "http_messages", "a message, in any pieces"),
    "decide": (2, 4, 1, "job_core", "the reply and the change"),
    "JobStore": (0, 5, 3, "job_facts", "the interface of a store: reads, commit, release"),
    "SqlStore": (0, 6, 4, "schema", "the store over SQLite"),
    "ListStore, FaultyStore": (4, 6, 1, "list_store, faulty_store", "stores of lists"),
    "rows_after_change": (0, 7, 1, "image_laws", "contents and their rows"),
    "batch, session, segment": (1, 7, 1, "store_reads", "the result of each read"),
    "commit": (2, 7, 1, "change_writes", "one transaction"),
    "adopt": (3, 7, 1, "adoption", "opens sound databases"),
    "examine": (4, 7, 1, "examination", "finds what a database is"),
    "rows_of, run_each": (1, 8, 2, "sql_base, sql_tables", "the effect of a statement, for any schema"),
    "remake": (3, 8, 1, "remaking", "rebuilds the tables"),
    "Connection, Transaction": (1, 9, 2, "sqlite", "trusted contracts of the toolchain; premise: a correct device"),
    "feed_engine": (3, 0, 2, "feeding", "what a feed sends and prints"),
    "request_text, parse_reply": (3, 1, 1, "wire", "the client's messages"),
    "Feeder": (4, 1, 1, "feeder", "the next act of a driver"),
    "every_world": (4, 2, 1, "feeder", "the shop-floor theorem"),
    "Serves, ServesAll": (3, 2, 1, "server", "Exchanges.antt"),
    "contents_after": (3, 3, 1, "arrivals", "Meaning.antt"),
    "world_after": (4, 3, 1, "feeder", "World.antt"),
    "step": (3, 4, 1, "job_facts", "Steps.antt"),
    "after_card, after_reply": (4, 4, 1, "feeder", "Table.antt"),
}
BENDS = {
    ("examine", "rows_of, run_each"): ((1010, 728), (1010, 834), (640, 834), (640, 818)),
    ("Tests", "Tables and files"): ((20, 48), (9, 48), (9, 220), (20, 220)),
    ("Server", "Repeated requests"): ((850, 439), (871, 439), (871, 674), (850, 674)),  # drawn although Server leads there through Messages
    ("Feeder", "after_card, after_reply"): ((1110, 159), (1126, 159), (1126, 429), (1110, 429)),
    ("ListStore, FaultyStore", "JobStore"): ((1010, 580), (1010, 564), (566, 564), (566, 548)),
}
LEFT_OUT = {("serve_over_tables", "SqlStore"), ("serve_inputs", "ListStore, FaultyStore")}  # the texts of these functions name the stores


class Box(NamedTuple):
    x: int
    y: int
    width: int
    height: int

    def arrow_to(self, other: Box) -> tuple:
        """Returns the ends of a straight arrow to a box that faces this one, or nothing."""
        left, right = max(self.x, other.x), min(self.x + self.width, other.x + other.width)
        top, bottom = max(self.y, other.y), min(self.y + self.height, other.y + other.height)
        x, y = (left + right) // 2, (top + bottom) // 2
        if left < right:
            return ((x, bottom), (x, top)) if self.y < other.y else ((x, top), (x, bottom))
        if top < bottom:
            return ((right, y), (left, y)) if self.x < other.x else ((left, y), (right, y))
        return ()

    def is_crossed(self, points: tuple) -> bool:
        return any(min(x, u) < self.x + self.width and max(x, u) > self.x and min(y, v) < self.y + self.height and max(y, v) > self.y
                   for (x, y), (u, v) in zip(points, points[1:]))


class Picture:
    """An SVG of boxes, texts and arrows, and the faults found while drawing it."""

    def __init__(self, file: str, width: int, height: int, description: str, edges: set) -> None:
        self.file, self.edges, self.boxes, self.arrows, self.faults = f"docs/{file}", edges, {}, set(), []
        heads = "".join(f'<marker id="m{colour[1:]}" viewBox="0 0 10 10" refX="9" refY="5" markerWidth="7" markerHeight="7" orient="auto">'
                        f'<path d="M0 0L10 5L0 10z" fill="{colour}"/></marker>' for colour in (GREEN, BLUE, ORANGE, DIM))
        self.parts = [f'<svg xmlns="http://www.w3.org/2000/svg" viewBox="0 0 {width} {height}" width="{width}" height="{height}" role="img" '
                      f'aria-label="{escape(description)}">', f"<defs>{heads}</defs>", f'<rect width="{width}" height="{height}" rx="10" fill="{PAPER}"/>']

    def box(self, name: str, box: Box, edge: str = DIM, fill: str = WHITE) -> None:
        self.boxes[name] = box
        place = f'x="{box.x}" y="{box.y}" width="{box.width}" height="{box.height}" rx="6"' + ' stroke-dasharray="5 4"' * (fill == OUTSIDE)
        self.parts.append(f'<rect {place} fill="{fill}" stroke="{edge}" stroke-width="1.3"/>')

    def text(self, x: int, y: int, text: str, size: int = 11, colour: str = DIM, font: str = "", space: int = 1000) -> None:
        family = "DejaVu Sans Mono, Menlo, Consolas, monospace" if "mono" in font else "DejaVu Sans, Verdana, Arial, sans-serif"
        more = ' font-weight="bold"' * ("bold" in font) + ' text-anchor="end"' * ("right" in font)
        self.parts.append(f'<text x="{x}" y="{y}" font-family="{family}" font-size="{size}" fill="{colour}"{more}>{escape(text)}</text>')
        if len(text) * size * (0.605 if "mono" in font else 0.55) > space:
            self.faults.append(f"{self.file} has no space for {text}")

    def line(self, points: tuple, colour: str, title: str = "") -> None:
        path, dash = "L".join(f"{x} {y}" for x, y in points), ' stroke-dasharray="5 4"' * (colour == DIM)
        self.parts.append(f'<path d="M{path}" fill="none" stroke="{colour}" stroke-width="2" marker-end="url(#m{colour[1:]})"{dash}>{title}</path>')

    def arrow(self, name: str, other: str, colour: str, bends: tuple = ()) -> None:
        points = bends or self.boxes[name].arrow_to(self.boxes[other])
        if not points or any(box.is_crossed(points) for box in self.boxes.values()):
            self.faults.append(f"{self.file}: the arrow from {name} to {other} would cross a box; move boxes, or add BENDS")
        self.arrows.add((name, other))
        self.line(points, colour, f"<title>{escape(f'{name} → {other}')}</title>")

    def whole(self) -> str:
        return "\n".join([*self.parts, "</svg>\n"])

    def differences(self) -> list:
        text = (TOP / self.file).read_text() if (TOP / self.file).exists() else ""
        shown = {(unescape(name), unescape(other)) for name, other in findall("<title>(.*) → (.*)</title>", text)}
        found = [f"{self.file} has an arrow without an edge, from {name} to {other}" for name, other in sorted(shown - self.edges)]
        found += [f"{self.file} lacks the arrow from {name} to {other}" for name, other in sorted(self.arrows - shown)]
        return found + [f"{self.file} is outdated: run bench/run pictures"] * (text != self.whole())


def architecture() -> Picture:
    crates, edges = sections()
    picture = Picture("architecture.svg", 1100, 1090, "The sections of crates.txt with their crates, and an arrow to each section that a section uses", edges)
    for section, names in crates.items():
        x, y, width, height, columns, purpose = SECTIONS.get(section) or sys.exit(f"pictures.py has no place for the section {section}")
        picture.box(section, Box(x, y, width, height), fill=OUTSIDE if section == "Rattle toolchain" else WHITE)
        picture.text(x + 12, y + 21, section, 15, INK, "bold", width - 24)
        picture.text(*((x + width - 12, y + 20, purpose, 11, DIM, "right") if columns > 2 else (x + 12, y + 38, purpose, 11, DIM, "", width - 24)))
        rows, first, space = -(-len(names) // columns), 42 if columns > 2 else 60, (width - 16) // columns
        if first + rows * 17 - 10 > height:
            picture.faults.append(f"{picture.file} has no space for the crates of {section}")
        for place, name in enumerate(names):
            picture.text(x + 12 + place // rows * space, y + first + place % rows * 17, name, 12, INK, "mono", space)
    for name, other in sorted(reduced(edges) | {*BENDS} & edges):
        picture.arrow(name, other, BLUE, BENDS.get((name, other), ()))
    picture.text(20, 1072, "An arrow points to a section that is used. If other arrows lead there, it is left out, except from Server to Repeated requests.")
    return picture


def contracts() -> Picture:
    edges, implements, unknown = depends({box: (place[3].split(", "), box.split(", ")) for box, place in CONTRACTS.items()})
    picture = Picture("contracts.svg", 1140, 966, "Contracts, and an arrow to each contract and definition that a contract depends on", edges)
    picture.faults += [f"{picture.file}: the crates of its box don't have {name}; change its box in pictures.py" for name in unknown]
    picture.text(22, 26, "Server", 16, BLUE, "bold")
    picture.text(688, 26, "Shop floor", 16, ORANGE, "bold")
    for box, (column, row, span, crates, statement) in CONTRACTS.items():
        x, y, space = 22 + 222 * column, 40 + 90 * row, 222 * span - 40
        picture.box(box, Box(x, y, space + 18, 58), GREEN if statement.endswith(".antt") else DIM, OUTSIDE if crates == "sqlite" else WHITE)
        picture.text(x + 10, y + 18, box, 12, INK, "mono bold", space)
        picture.text(x + 10, y + 34, crates, 11, DIM, "mono", space)
        picture.text(x + 10, y + 50, statement, 11, INK, "", space)
    for name, other in sorted(reduced(edges) - LEFT_OUT):
        colour = GREEN if CONTRACTS[other][4].endswith(".antt") else ORANGE if CONTRACTS[name][0] > 2 and CONTRACTS[name][1] < 3 else BLUE
        picture.arrow(name, other, DIM if (name, other) in implements else colour, BENDS.get((name, other), ()))
    legend = (BLUE, "calls, in the server"), (ORANGE, "calls, in a driver"), (GREEN, "uses the definition"), (DIM, "implements the interface")
    for place, (colour, text) in enumerate(legend):
        picture.line(((700, 878 + 20 * place), (740, 878 + 20 * place)), colour)
        picture.text(752, 882 + 20 * place, text)
    return picture


def main() -> int:
    pictures = architecture(), contracts()
    if "--check" not in sys.argv:
        for picture in pictures:
            (TOP / picture.file).write_text(picture.whole())
    faults = [fault for picture in pictures for fault in picture.faults + picture.differences()]
    faults += [f"BENDS or LEFT_OUT: there is no edge from {name} to {other}" for name, other in {*BENDS, *LEFT_OUT} - pictures[0].edges - pictures[1].edges]
    print("\n".join([*faults, f"{len(pictures)} pictures, {len(faults)} faults"]))
    return 1 if faults else 0


if __name__ == "__main__":
    sys.exit(main())
