"""Reads the edges of the two pictures of ARCHITECTURE.md from crates.txt and from the code and definitions of the crates."""
from __future__ import annotations

import pathlib
import re

TOP = pathlib.Path(__file__).resolve().parents[2]
# Comments and attributes, which are only for proofs.
IGNORED = {".rt": re.compile(r"//.*|^ *#!?\[[^\]]*\]", re.M), ".antt": re.compile(r"--.*")}
# The start of a function, type or definition, which ends at the next one.
BEGIN = {".rt": re.compile(r"^(?:pub(?:\([a-z]+\))? )?(?:(?:fn|struct|enum|trait) |impl\b(?:.* for|<[^{]*>|) )(\w+)", re.M),
         ".antt": re.compile(r"^(?:(?:abbrev|unfoldable|unfolding|pub|record|data) )*(\w+)", re.M)}
USE = re.compile(r"^ *(?:ghost |pub )?use (Rattle\.)?(\w+)(?:(?:::|\.)\w+)*?(?:(?:::|\.)(?:\{([^}]*)\}|(\w+)))?(?: as (\w+))?;?$", re.M)
NAME = re.compile(r"(?<![.\w])(?:(\w+)::(?:\w+::)*)?(\w+)(\(|::<)?")


def sections() -> tuple:
    """Returns the crates of each section of crates.txt, and the pairs of sections in which the first uses the second."""
    crates, uses, section = {}, {}, ""
    for line in (TOP / "crates.txt").read_text().splitlines():
        if line.startswith("# ---- "):
            section = line[7:].split(":")[0]
        elif line and not line.startswith("#"):
            name, _, libraries = line.partition(":")
            crates.setdefault(section, []).append(name)
            uses[name] = libraries.split()
    crates["Rattle toolchain"] = sorted({library for name in uses for library in uses[name]} - {*uses})
    section_of = {name: section for section in crates for name in crates[section]}
    pairs = {(section_of[name], section_of[library]) for name in uses for library in uses[name]}
    return crates, {pair for pair in pairs if pair[0] != pair[1]}


def leads(name: str, other: str, edges: set, seen: set) -> bool:
    """Returns True if a path of edges leads from a name to another. It avoids the names in `seen`, and adds those that it finds."""
    nexts = {after for before, after in edges if before == name} - seen
    seen |= nexts
    return other in nexts or any(leads(after, other, edges, seen) for after in nexts)


def reduced(edges: set) -> set:
    """Returns the edges without those that follow from others."""
    return {edge for edge in edges if not leads(*edge, edges - {edge}, set())}


class Text:
    """The text of a function, type or definition, and the names that its file imports and defines."""

    def __init__(self, crate: str, text: str, imported: dict, defined: set, is_code: bool) -> None:
        self.crate, self.text, self.imported, self.defined, self.is_code = crate, text, imported, defined, is_code

    def names(self) -> set:
        """Returns the names in the text, each with its crate. A lower-case name in code counts only if it is a definition or is called."""
        found = set()
        for path, name, call in NAME.findall(self.text):
            crate, real, is_definition = self.imported.get(path or name, (self.crate, path or name, False))
            if path:  # a crate, a module or a type
                found |= {(crate, real), (path, name), (crate, name)}
            elif (name in self.imported or name in self.defined) and (not self.is_code or is_definition or call or name[0].isupper()):
                found.add((crate, real))
        return found


def imports(text: str, crate: str) -> dict:
    """Returns the names that a file imports. For each it gives the crate, the name there, and whether it is a definition."""
    found = {}
    for definition, library, many, one, alias in USE.findall(text):
        for name in filter(None, map(str.strip, (many or one or library).split(","))):
            real, _, other = name.partition(" as ")
            found[other or alias or real] = (crate if library in ("crate", "super") else library, real, bool(definition))
    return found


def texts() -> dict:
    """Returns the texts of each name of each crate."""
    found = {}
    for path in sorted([*TOP.glob("crates/*/src/**/*.rt"), *TOP.glob("crates/*/specs/*.antt")]):
        crate, whole = path.relative_to(TOP).parts[1], IGNORED[path.suffix].sub("", path.read_text())
        begins, imported = list(BEGIN[path.suffix].finditer(whole)), imports(whole, crate)
        for begin, end in zip(begins, [*(after.start() for after in begins[1:]), len(whole)]):
            text = Text(crate, whole[begin.start():end], imported, {each[1] for each in begins}, path.suffix == ".rt")
            found.setdefault((crate, begin[1]), []).append(text)
    return found


def depends(boxes: dict) -> tuple:
    """Returns which box depends on which, which box implements an interface of which, and unknown names. Each box has a list of crates and a list of names.

    A box depends on the names in its texts, and through names without a box on the names in their texts."""
    known, found, implements = texts(), set(), set()
    ours = {crate for crate, _ in known}
    own = {box: [(crate, name) for crate in crates for name in names if (crate, name) in known or crate not in ours] for box, (crates, names) in boxes.items()}
    box_of = {name: box for box, names in own.items() for name in names}
    for box, names in own.items():
        seen, left = set(names), list(names)
        while left:
            for name in {name for text in known.get(left.pop(), []) for name in text.names()} - seen:
                seen.add(name)
                if name in box_of:
                    found.add((box, box_of[name]))
                else:
                    left.append(name)
        code = "".join(text.text for name in names for text in known.get(name, []))
        implements |= {(box, other) for (_, trait), other in box_of.items() if re.search(rf"^impl\b.* {trait} for ", code, re.M)}
    unknown = {name for _, names in boxes.values() for name in names} - {name for _, name in box_of}
    return found, implements, sorted(unknown)
