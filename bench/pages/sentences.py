#!/usr/bin/env python3
"""Counts the words in the sentences of the pages, and fails if a page has long sentences.

    bench/run sentences [--show] [PAGE..]

The pages are those at the top of the repository, in docs/, bench/ and examples/. Only running text counts: paragraphs and list items, but not
code blocks, tables, headings and comments.

A paragraph and each list item begin and end a sentence. Within them, a sentence ends at a full stop, a question mark or an exclamation mark,
followed by optional closing marks (emphasis, quote or bracket), white space, and anything except a lower-case letter. A colon or a semicolon
doesn't end a sentence. A word is a text between white space that has a letter or a digit. A code span counts as one word. The text of a link
counts, but its target doesn't.

A page passes if its sentences have at most 20 words on average and at most 40 words each. --show prints each sentence with more than 40 words,
or with more than 30 if the average is above 20. Exit status: 1 if a page doesn't pass.
"""
import pathlib
import re
import sys
from typing import Iterator

TOP = pathlib.Path(__file__).resolve().parents[2]
MEAN, MOST, LONG = 20, 40, 30
ITEM = re.compile(r"^\s*(?:[-*]|\d+\.) ")
END = re.compile(r"(?<=[.!?])[*\"”)\]]*\s+(?![a-z])")
ABBREVIATIONS = re.compile(r"\b(e\.g|i\.e|vs)\.")


def paragraphs(text: str) -> Iterator[str]:
    """Yields the paragraphs and list items of a page, each as one line."""
    fenced = False
    gathered: list[str] = []
    for line in [*text.split("\n"), ""]:
        bare = line.strip()
        fence = bare.startswith("```")
        plain = fenced or fence or not bare or bare.startswith(("|", "#", "<!--", "![")) or line.startswith("    ")
        if gathered and (plain or ITEM.match(line)):
            yield " ".join(gathered)
            gathered = []
        fenced ^= fence
        if not plain:
            gathered.append(ITEM.sub("", line, count=1).strip())


def sentences(text: str) -> Iterator[str]:
    for paragraph in paragraphs(text):
        whole = re.sub(r"\[((?:[^\[\]]|\[[^\]]*\])*)\]\([^)]*\)", r"\1", paragraph)
        whole = re.sub(r"`[^`]*`", lambda span: "Code" + "." * span[0].endswith(".`"), whole)
        whole = ABBREVIATIONS.sub(r"\1", whole)
        yield from (sentence for sentence in END.split(whole) if words(sentence))


def words(sentence: str) -> int:
    return sum(any(mark.isalnum() for mark in word) for word in sentence.split())


def look(page: pathlib.Path, show: bool) -> bool:
    """Prints the result of a page, and returns whether it passes."""
    found = list(sentences(page.read_text()))
    counts = [words(sentence) for sentence in found] or [0]
    mean, most = sum(counts) / len(counts), max(counts)
    passes = mean <= MEAN and most <= MOST
    over = sum(count > MOST for count in counts)
    print(f"{'ok  ' if passes else 'LONG'} {page.relative_to(TOP)}: {len(counts)} sentences, mean {mean:.1f}, longest {most}, {over} over {MOST}")
    for sentence, count in zip(found, counts):
        if show and count > (LONG if mean > MEAN else MOST):
            print(f"    {count}: {sentence}")
    return passes


def main() -> int:
    names = [word for word in sys.argv[1:] if word != "--show"]
    every = [page for folder in (".", "docs", "bench", "examples") for page in sorted((TOP / folder).glob("*.md"))]
    pages = [TOP / name for name in names] or every
    return 0 if all([look(page, "--show" in sys.argv) for page in pages]) else 1


if __name__ == "__main__":
    sys.exit(main())
