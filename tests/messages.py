"""Whether each message of the programs stands on a page, and each message of a page is one of a program's. tests/rules calls `lacking`.

Messages are the faults and lines of the program, the words of the lines of the feed and of adsplice-decide, the words of `why`, the
alerts, and the figures for Prometheus.
"""
from __future__ import annotations

import glob
import os
import re

FAULTS, ALARMS = "docs/operating/faults.md", "docs/operating/monitoring.md"
TABLES = ((FAULTS, "| Who | Word | What it says |"), ("docs/SIGNALS.md", "| Who | Word | Meaning |"), ("docs/ADS.md", "| Who | Word | What it says |"))  # of words of lines
OUT_OF_MEMORY = frozenset({"P25", "J8", "N11", "C3"})  # which become E5 or 503 (docs/ARCHITECTURE.md)
NOT_LINES = frozenset({"words", "explain", "monitor", "causes", "excerpt", "judge", "as_run", "watch"})  # modules whose words stand in no line
NO_WORDS = frozenset({"Shape"})  # a part of a fault's name
OF_PLACES = frozenset({"First", "Second"})  # words that are made of names of places
CALL = re.compile(r"(?:\b(?:tell|tell_decision|say|line|refuse|Tell|Telling|WORDS|lack|Lack)\b|\bword|\bMANY)(?:\(| = )(?:[^()\n]|\([^()\n]*\))*")
FIGURE = re.compile(r'\b(Counter|Gauge|Histogram)MetricFamily\("(adsplice\w+)"')


def texts_at(top: str, pattern: str) -> dict[str, str]:
    """The texts of the files below `top` that fit `pattern`, by their names without an ending."""
    found = {}
    for path in sorted(glob.glob(os.path.join(top, pattern), recursive=True)):
        with open(path, encoding="utf-8") as it:
            found[os.path.splitext(os.path.relpath(path, top))[0]] = it.read()
    return found


def printed_by_program(sources: dict[str, str]) -> set[str]:
    """The faults, such as `P17 NoDuration`, and the lines that begin with `cannot`, of the program's `sources`."""
    text = "\n".join(sources.values())
    faults = {it for it in re.findall(r'"([PNJCE]\d+ [A-Z]\w+)', text) if it.split()[0] not in OUT_OF_MEMORY}
    return faults | {it.strip() for it in re.findall(r'"(cannot [A-Za-z ]+)', text)}


def words_of_lines(sources: dict[str, str]) -> set[str]:
    """The words that stand in place of a fault in the lines of the plant's `sources`."""
    found: set[str] = set()
    for name, text in sources.items():
        if os.path.basename(name) not in NOT_LINES:
            for call in CALL.findall(text):
                found |= set(re.findall(r'"([A-Z][a-z]+(?:[A-Z][a-z]+)*)"', call))
    return (found - NO_WORDS) | OF_PLACES


def words_of_tables(pages: dict[str, str]) -> set[str]:
    """The words in the second cells of TABLES, of `pages` by their paths."""
    rows = [row for path, title in TABLES for row in pages[path].partition(title)[2].partition("\n\n")[0].split("\n")[2:]]
    return {word for row in rows for word in re.findall(r"`([A-Z][A-Za-z]+)`", row.split(" | ")[1])}


def figures_of(sources: dict[str, str]) -> set[str]:
    """The names of the figures that the plant's `sources` have, as Prometheus reads them."""
    found = {f"{name}_total" if kind == "Counter" else name for text in sources.values() for kind, name in FIGURE.findall(text)}
    several = re.search(r"^MACHINES = \{(.*?)\}", sources.get("plant/adsplice_plant/monitor", ""), re.MULTILINE | re.DOTALL)
    return found | {f"adsplice_{it}" for it in re.findall(r'"(\w+)":', several[1] if several else "")}


def differing(what: str, page: str, there: set[str], said: set[str]) -> list[str]:
    """A line for each of those that are `there` and that no row of the `page` has, and for each that is `said` and isn't there."""
    return [f"{page}: it lacks {what} {it}" for it in sorted(there - said)] + [f"{page}: no program has {what} {it}" for it in sorted(said - there)]


def lacking(top: str) -> tuple[int, list[str]]:
    """How many messages the repository at `top` has, and a line for each that isn't on its page, or is there and nowhere else."""
    plant = texts_at(top, "plant/adsplice_plant/*.py")
    pages = {f"{name}.md": text for name, text in (texts_at(top, "docs/*.md") | texts_at(top, "docs/operating/*.md")).items()}
    printed = printed_by_program(texts_at(top, "crates/*/src/**/*.rt"))
    lines, figures = words_of_lines(plant), figures_of(plant)
    alerts = {it for text in texts_at(top, "plant/monitor/*alerts.yml").values() for it in re.findall(r"- alert: (\w+)", text)}
    spoken = {it for it in re.findall(r"^\| `([A-Z]\w+)` \|", pages[FAULTS].partition("## Why a break is empty")[2].partition("\n## ")[0], re.MULTILINE)}
    why = set(re.findall(r'"([A-Z]\w+)"', re.search(r"^WORDS = .*", plant["plant/adsplice_plant/watch"], re.MULTILINE)[0]))  # type: ignore[index]
    checks = [
        differing("the line or fault", FAULTS, printed, {it for it in re.findall(r"`([PNJCE]\d+ [A-Z]\w+|cannot [\w ]+)", pages[FAULTS])}),
        differing("the word of a line", FAULTS, lines, words_of_tables(pages)),
        differing("the word of why", FAULTS, why, spoken),
        differing("the alarm", ALARMS, alerts, set(re.findall(r"^\| `(Adsplice\w+)` \|", pages[ALARMS], re.MULTILINE))),
        differing("the figure", f"{ALARMS}, docs/ADS.md", figures, set(re.findall(r"`(adsplice_\w+)(?:\{[^}]*\})?`", pages[ALARMS].partition("## Figures")[2].partition("\n## ")[0] + pages["docs/ADS.md"])) - {"adsplice_rules"}),
    ]
    return len(printed) + len(lines) + len(why) + len(alerts) + len(figures), [it for found in checks for it in found]
