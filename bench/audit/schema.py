"""Describes the tables of each schema version (docs/TABLES.md) and the tables of a database in the same terms."""
import re
import sqlite3
from typing import NamedTuple

VERSIONS = (1, 2, 3)
RANGE = re.compile(r"(\w+) between (\d+) and (\d+)")
VALUE = re.compile(r"(\w+) = (\d+)")
TOKEN = re.compile(r"""\s+|--[^\n]*|/\*.*?\*/|(?P<quoted>"[^"]*"|`[^`]*`|\[[^]]*])|(?P<text>'(?:[^']|'')*')|(?P<word>\w+)|(?P<sign>.)""", re.S)
# Keywords that no table of the server uses, for further keys, orders, and times of checks.
FOREIGN = {"autoincrement", "collate", "conflict", "deferrable"}


class Reference(NamedTuple):
    columns: tuple[str, ...]
    table: str
    its_columns: tuple[str, ...]


class Range(NamedTuple):
    """The values that a CHECK allows for a column."""

    column: str
    least: int
    most: int


class Table(NamedTuple):
    """A table: the columns with their types, the primary key, and the keys with an index, each in order. An integer primary key has no index."""

    name: str
    columns: tuple[tuple[str, str], ...]
    key: tuple[str, ...]
    indexed: tuple[tuple[str, ...], ...]
    references: tuple[Reference, ...]
    ranges: tuple[Range, ...]


def table(name: str, columns: str, key: str, unique: str = "", references: dict[str, tuple[str, str]] | None = None,
          **ranges: tuple[int, int]) -> Table:
    types = {"I": "INTEGER", "T": "TEXT", "B": "BLOB"}
    typed = tuple((word[2:], types[word[0]]) for word in columns.split())
    primary = tuple(key.split())
    keys = ([] if len(primary) == 1 and (key, "INTEGER") in typed else [primary]) + ([tuple(unique.split())] if unique else [])
    its = tuple(Reference(tuple(ours.split()), other, tuple(theirs.split())) for ours, (other, theirs) in (references or {}).items())
    return Table(name, typed, primary, tuple(keys), its, tuple(Range(column, *ends) for column, ends in ranges.items()))


def grouping(name: str, most: int) -> Table:
    return table(name, "I:batch I:line I:place B:aid I:rank I:enc I:tol B:coded", "batch line",
                 references={"batch place": ("record", "batch place")}, rank=(1, 999), enc=(0, most), tol=(0, 1))


def tables_of(version: int) -> list[Table]:
    """Returns the tables in the order of TABLES.md. In versions 1 and 2, a table is at the place of its counterpart in version 3."""
    return [
        table("version", "I:id I:number", "id", id=(1, 1), number=(version, version)),
        table("product", "T:name I:max I:low I:checked", "name", max=(16, 255), low=(0, 31), checked=(0, 1)),
        table("lot", "T:name T:product I:low_serial I:amount I:discarded", "name", references={"product": ("product", "name")},
              amount=(1, 1_000_000)),
        table("batch", "I:id T:name T:product B:raw I:closed I:waiting I:running I:failed I:withdrawn I:good I:sessions I:spoiled",
              "id", "name", {"product": ("product", "name")}, closed=(0, 1)),
        table("record", "I:batch I:place T:name I:state I:spoiled I:remakes", "batch place", "batch name", {"batch": ("batch", "id")},
              state=(0, 4)),
        grouping("grouping2", 2) if version == 3 else grouping("grouping", 1),
        table("session", "I:id T:machine I:batch I:place I:serial I:state I:ended I:words I:app I:segment I:at_offset I:block",
              "id", "serial", {"batch place": ("record", "batch place")}, state=(0, 2), ended=(0, 1)),
        table("word", "I:session I:place I:sw", "session place", references={"session": ("session", "id")}, sw=(0, 65_535)),
        table("blank", "I:serial T:lot I:kind", "serial", references={"lot": ("lot", "name")}, kind=(0, 1)),
        table("remake", "I:batch I:place I:turn", "batch place turn", references={"batch place": ("record", "batch place")}),
        table("reply", "T:client I:number B:ask I:status B:body", "client number"),
        *([table("mark", "T:client I:upto", "client", upto=(1, 10 ** 18 - 1))] if version > 1 else []),
    ]


INDICES = {
    "session_running": "session (machine, state)",
    "grouping_place": "grouping2 (batch, place, aid, rank, line, enc, tol)",
    "session_stands": "session (batch, state)",
    "batch_told": "batch (name, product, closed)",
    "batch_named": "batch (id, name)",
    "lot_serial": "lot (low_serial)",
}


# Tables as text.


def check_of(its: Range) -> str:
    return f"CHECK ({its.column} = {its.least})" if its.least == its.most else f"CHECK ({its.column} BETWEEN {its.least} AND {its.most})"


def names(columns: tuple[str, ...]) -> str:
    return ", ".join(columns)


def text_of(its: Table) -> str:
    """Returns a CREATE TABLE statement in which each key, reference and check of one column is part of the column."""
    further = [key for key in its.indexed if key != its.key]
    parts = []
    for column, kind in its.columns:
        part = f"{column} {kind} NOT NULL"
        part += " PRIMARY KEY" if its.key == (column,) else ""
        part += " UNIQUE" if (column,) in further else ""
        part += "".join(f" REFERENCES {it.table} ({names(it.its_columns)})" for it in its.references if it.columns == (column,))
        part += "".join(f" {check_of(it)}" for it in its.ranges if it.column == column)
        parts.append(part)
    parts += [f"PRIMARY KEY ({names(its.key)})"] if len(its.key) > 1 else []
    parts += [f"UNIQUE ({names(key)})" for key in further if len(key) > 1]
    parts += [f"FOREIGN KEY ({names(it.columns)}) REFERENCES {it.table} ({names(it.its_columns)})" for it in its.references if len(it.columns) > 1]
    return f"CREATE TABLE {its.name} ({', '.join(parts)}) STRICT"


def other_text_of(its: Table) -> str:
    """Returns an equivalent CREATE TABLE statement in another form: keys, references and checks follow the columns, and white space and case
    differ."""
    parts = [f'  "{column}" {kind.lower()} not null' for column, kind in its.columns]
    parts += [f"  primary key ({names(its.key)})"]
    parts += [f"  unique ({names(key)})" for key in its.indexed if key != its.key]
    parts += [f"  foreign key ({names(it.columns)}) references {it.table} ({names(it.its_columns)})" for it in its.references]
    parts += [f"  {check_of(it).lower()}" for it in its.ranges]
    return f'create table "{its.name}" ( -- as docs/TABLES.md has it\n' + ",\n".join(parts) + "\n) strict"


# The tables that a database has.


def tokens(text: str) -> list[str]:
    """Returns the words and signs of an SQL text in lower case, with names unquoted."""
    made = []
    for found in TOKEN.finditer(text):
        if found["quoted"]:
            made.append(found["quoted"][1:-1].lower())
        elif found["text"] or found["word"] or found["sign"]:
            made.append(found[0].lower())
    return made


def checks_of(words: list[str]) -> list[str]:
    """Returns the expression of each CHECK."""
    made = []
    for at, word in enumerate(words):
        if word == "check" and words[at + 1:at + 2] == ["("]:
            depth, end = 1, at + 2
            while depth:
                depth += {"(": 1, ")": -1}.get(words[end], 0)
                end += 1
            made.append(" ".join(words[at + 2:end - 1]))
    return made


def ranges_of(text: str) -> tuple[Range, ...] | None:
    """Returns the ranges that the checks allow, or None if a check has another form."""
    made = []
    for check in checks_of(tokens(text)):
        found = RANGE.fullmatch(check) or VALUE.fullmatch(check)
        if found is None:
            return None
        made.append(Range(found[1], int(found[2]), int(found[found.lastindex or 2])))
    return tuple(made)


def references_of(conn: sqlite3.Connection, name: str) -> tuple[Reference, ...] | None:
    found: dict[int, list[tuple]] = {}
    query = 'SELECT id, "from", "to", "table", on_update, on_delete, "match" FROM pragma_foreign_key_list(?) ORDER BY id, seq'
    for row in conn.execute(query, (name,)):
        found.setdefault(row[0], []).append(row[1:])
    if any(row[3:] != ("NO ACTION", "NO ACTION", "NONE") for rows in found.values() for row in rows):
        return None
    return tuple(Reference(tuple(row[0] for row in rows), rows[0][2], tuple(row[1] for row in rows)) for rows in found.values())


def indexed_of(conn: sqlite3.Connection, name: str) -> tuple[tuple[str, ...], ...] | None:
    """Returns the keys with an index, in the order of their declaration, or None if an index made by CREATE INDEX isn't plain."""
    indices = conn.execute('SELECT name, "unique" OR partial, origin FROM pragma_index_list(?)', (name,)).fetchall()
    columns = {index: tuple(column for column, in conn.execute("SELECT name FROM pragma_index_info(?) ORDER BY seqno", (index,)))
               for index, *_ in indices}
    if any((is_special or None in columns[index]) and origin == "c" for index, is_special, origin in indices):
        return None
    declared = sorted((index for index, _, origin in indices if origin != "c"), key=lambda index: int(index.rpartition("_")[2]))
    return tuple(columns[index] for index in declared)


def found_table(conn: sqlite3.Connection, name: str, text: str) -> Table | None:
    """Describes a table of the database, or returns None if it can't be a table of the server."""
    query = 'SELECT name, upper(type), "notnull", dflt_value, pk, hidden FROM pragma_table_xinfo(?) ORDER BY cid'
    columns = conn.execute(query, (name,)).fetchall()
    is_plain = all(not_null and default is None and not hidden for _, _, not_null, default, _, hidden in columns)
    ranges, references, indexed = ranges_of(text), references_of(conn, name), indexed_of(conn, name)
    if not is_plain or ranges is None or references is None or indexed is None or FOREIGN & set(tokens(text)):
        return None
    key = tuple(column for column, _, _, _, place, _ in sorted(columns, key=lambda it: it[4]) if place)
    return Table(name, tuple((column, kind) for column, kind, *_ in columns), key, indexed, references, ranges)


def version_of(conn: sqlite3.Connection) -> int | None:
    """Returns the schema version if the database has exactly its tables. Plain indices and the order of the tables don't matter."""
    if conn.execute("PRAGMA encoding").fetchone() != ("UTF-8",) or conn.execute("PRAGMA auto_vacuum").fetchone() != (0,):
        return None
    listed = conn.execute("SELECT name, type, wr, strict FROM pragma_table_list WHERE schema = 'main' AND name <> 'sqlite_schema'").fetchall()
    texts = dict(conn.execute("SELECT name, sql FROM sqlite_schema WHERE type = 'table'"))
    if (any((kind, without_rowid, strict) != ("table", 0, 1) for _, kind, without_rowid, strict in listed)
            or conn.execute("SELECT 1 FROM sqlite_schema WHERE type IN ('view', 'trigger')").fetchone()):
        return None
    found = {name: found_table(conn, name, texts[name]) for name, *_ in listed}
    return next((version for version in VERSIONS if found == {it.name: it for it in tables_of(version)}), None)
