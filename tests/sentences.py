"""Which sentences of the pages are too long, and which hide who acts, or when. tests/rules calls `lacking`.

A sentence ends at a full stop, a question mark or an exclamation mark before a space. A paragraph, an item of a list and a
cell of a table are read by themselves. Text in backticks counts as one word, a link as its own text. Blocks of code,
headings and lists of a page's headings are passed over.
"""
from __future__ import annotations

import os
import re
from collections.abc import Iterator

LIMIT = 25  # words of a sentence
OPERATING = tuple(f"docs/operating/{it}.md" for it in ("README", "ads", "capacity", "channel", "faults", "install", "ladder", "machines", "monitoring", "security", "trials", "upgrade"))
PAGES = ("README.md", "docs/first_hour.md", *OPERATING, "docs/SIGNALS.md", "docs/PACKAGERS.md", "docs/ADS.md", "docs/DECISION_FILES.md", "docs/REPLICAS.md",
         "CHANGELOG.md", "CONTRIBUTING.md", "bench/README.md", "crates/README.md", "docs/ARCHITECTURE.md", "docs/CONFORMANCE.md", "docs/DECISIONS.md",
         "docs/LIBRARY.md", "docs/OPERATING.md", "docs/PERFORMANCE.md", "docs/PROOF.md", "docs/TESTING.md", "plant/README.md")
# Words with which a sentence hides who acts, whom it is of, or when.
HIDING = re.compile(r"\b(?:is|are|was|were|be|been) (?:told|looked at|looked for)\b|\bso many\b|\b[Ww]hoever\b|\b[Aa]t once\b")
ITEM = re.compile(r"^\s*(?:- |\d+\. )")
END = re.compile(r"(?<=[\w)`*\"%'\]][.!?])(?:\*\*|\))?\s+")


def blocks_in(text: str) -> Iterator[tuple[int, str]]:
    """Each paragraph, item and cell of a page, with the line on which it begins."""
    begin, held = 0, ""
    for number, line in enumerate([*text.split("\n"), ""], 1):
        is_apart = not line.strip() or line.startswith(("    ", "#", "![", "|", "On this page: "))
        if held and (is_apart or ITEM.match(line)):
            yield begin, held
            held = ""
        if line.startswith("|"):
            yield from ((number, cell.strip()) for cell in line.strip("|").split(" | "))
        elif not is_apart:
            begin = begin if held else number
            held = f"{held} {ITEM.sub('', line, count=1).strip()}".strip()


def sentences_of(block: str) -> list[str]:
    """The sentences of a paragraph, an item or a cell."""
    words = re.sub(r"`[^`]*`", "`code`", re.sub(r"\[([^\]]*)\]\([^)]*\)", r"\1", block))
    return END.split(words)


def long_in(text: str) -> Iterator[tuple[int, int, str]]:
    """The line, the count of words and the text of each sentence of a page that has more than LIMIT words."""
    for line, block in blocks_in(text):
        for sentence in sentences_of(block):
            count = len(sentence.split())
            if count > LIMIT:
                yield line, count, sentence


def hiding_in(text: str) -> Iterator[tuple[int, str]]:
    """The line and the words of each place of a page at which a sentence hides who acts, whom it is of, or when."""
    for line, block in blocks_in(text):
        yield from ((line, it) for sentence in sentences_of(block) for it in HIDING.findall(sentence))


def lacking(top: str) -> list[str]:
    """A line for each long sentence of the pages at `top`, and for each place that hides who acts, or when."""
    faults = []
    for page in PAGES:
        with open(os.path.join(top, page), encoding="utf-8") as it:
            text = it.read()
        faults += [f"{page}:{line}: a sentence of {count} words: {said[:70]}" for line, count, said in long_in(text)]
        faults += [f"{page}:{line}: it says {said!r}: say who does it, or when" for line, said in hiding_in(text)]
    return faults
