#!/usr/bin/env python3
"""Checks that the links of all pages lead to existing files and headings.

    bench/run links

The pages are those at the top of the repository, in docs/ and in examples/, and bench/README.md. The target of a link must be an existing file
or folder of this repository, and an anchor must be a heading of its page.

If the text of a link is a name in code and its target is a source file, such as [`Cursor::put`](../crates/store_data/src/cursor.rt), the last
part of the name must occur in this file as a word, or be the name of the crate. In a file of Rattle code it must follow `fn`, `struct`, `enum`
or `trait`.

Each file that a table cell of CONTRIBUTING.md names as `crate`: `file.rt` or `S/File.antt` must also exist. Exit status: 1 if a link is broken
or a file is missing."""
import pathlib
import re
import sys

TOP = pathlib.Path(__file__).resolve().parents[2]
LINK = re.compile(r"\[((?:[^\[\]]|\[[^\]]*\])*)\]\(([^)#:]*)(?:#([^)]*))?\)")
CELL = re.compile(r"`(\w+)`: ((?:`[^`]+`(?: \([^)]*\))?(?:,? and |,? or |, )?)+)")
NAME = re.compile(r"`([\w:]+)`")


def pages() -> list[pathlib.Path]:
    found = [*sorted(TOP.glob("*.md")), TOP / "bench" / "README.md"]
    for folder in ("docs", "examples"):
        found += sorted((TOP / folder).glob("*.md"))
    return [page for page in found if page.exists()]


def anchors(page: pathlib.Path) -> set[str]:
    """Returns the anchors of a page: its headings, in the form of GitHub and GitLab."""
    heads = re.findall(r"^#+ (.*)$", page.read_text(), re.M)
    return {re.sub(r"[^\w\- ]", "", head.lower()).replace(" ", "-") for head in heads}


def fault(page: pathlib.Path, text: str, target: str, anchor: str) -> str:
    path = page.parent / target if target else page
    if not path.exists():
        return "doesn't exist"
    if anchor and path.suffix == ".md" and anchor not in anchors(path):
        return f"has no heading {anchor}"
    name = NAME.fullmatch(text)
    if name and path.is_file() and path.suffix in (".rt", ".antt", ".py"):
        word = name[1].split("::")[-1]
        before = r"\b(?:fn|struct|enum|trait) " if path.suffix == ".rt" else r"\b"
        if word != path.parent.parent.name and not re.search(before + word + r"\b", path.read_text()):
            return f"has no {word}"
    return ""


def missing_files(page: pathlib.Path) -> list[str]:
    """Returns the files that the table in CONTRIBUTING.md names and that don't exist."""
    found = []
    for crate, files in CELL.findall(page.read_text()):
        for name in re.findall(r"`([\w/]+\.(?:rt|antt))`", files):
            path = TOP / "crates" / crate / (name.replace("S/", "specs/") if name.startswith("S/") else f"src/{name}")
            if not path.exists():
                found.append(f"{page.relative_to(TOP)} names {path.relative_to(TOP)}, which doesn't exist")
    return found


def main() -> int:
    count, faults = 0, missing_files(TOP / "CONTRIBUTING.md")
    for page in pages():
        for text, target, anchor in LINK.findall(page.read_text()):
            count += 1
            why = fault(page, text, target, anchor)
            if why:
                faults.append(f"{page.relative_to(TOP)} links to {target}{'#' * bool(anchor)}{anchor}, which {why}")
    print("\n".join([*faults, f"{count} links, {len(faults)} faults"]))
    return 1 if faults else 0


if __name__ == "__main__":
    sys.exit(main())
