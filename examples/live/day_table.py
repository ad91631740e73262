"""The table of check_day: a row for each fault, and what doesn't hold."""
from __future__ import annotations

from collections.abc import Iterable
from dataclasses import dataclass, field

from day_faults import Fault
from day_measures import Alarm, Alarms, Audience, Lists, Story

EQUAL = 10.0  # seconds after a fault's end in which renditions have to be equal
NAMED = 30.0  # seconds in which an alarm has to name a fault
RINGS = 330.0  # seconds after a fault's end in which its alarms may ring on: some look back five minutes
HEAD = """| What happened | Lists right again | Wrong with lists meanwhile | Players | Alarm |
|---|---|---|---|---|"""


@dataclass
class Row:
    """What was seen of a fault of the `programmes` from its `begin` to the next one's (`next`): it was undone at `end`, and all lists were
    right `healed` seconds later, renditions equal `equal` seconds later. `named` is the first of its alarms, with the seconds after its
    begin."""

    fault: Fault
    programmes: list[str]
    begin: float
    end: float
    next: float
    healed: float = 0.0
    equal: float = 0.0
    words: list[str] = field(default_factory=list)
    stories: dict[str, Story] = field(default_factory=dict)
    named: tuple[str, float] | None = None

    def text(self) -> str:
        """The row in Markdown."""
        noticed = [f"{name} {it.text()}" for name, it in self.stories.items() if it.is_noticed(name)]
        players = ". ".join(noticed) or ("don't notice" if self.stories else "none")
        where = f"`{self.fault.programme}`: " if self.fault.programme else ""
        healed = f"after {self.healed:.1f} s" if self.healed > 0 else "throughout" if not self.words else "when it ended"
        alarm = f"{self.named[0]} after {self.named[1]:.0f} s" if self.named else "none" if self.fault.is_due else "none is due"
        return f"| {where}{self.fault.text} | {healed} | {', '.join(self.words) or 'nothing'} | {players} | {alarm} |"


def rows_of(done: list[tuple[Fault, float, float]], over: float, lists: Lists, alarms: Alarms | None, audience: Audience) -> list[Row]:
    """The rows of the faults that were `done`, each with its begin and end; the day was `over` at a moment."""
    rows = []
    for (fault, begin, end), following in zip(done, [*(it[1] for it in done[1:]), over]):
        programmes = fault.programmes(lists.day)
        row = Row(fault, programmes, begin, end, following)
        row.healed = lists.healed(programmes, end, following) - end
        row.equal = lists.healed(programmes, end, following, "apart") - end
        row.words = lists.words(programmes, begin, following)
        row.stories = audience.stories(programmes, begin, following)
        rang = [it for it in (alarms.rang if alarms else []) if is_of(it, row) and begin <= it.begin <= end + NAMED]
        first = min(rang, key=lambda it: it.begin, default=None)
        row.named = (first.name, first.begin - begin) if first else None
        rows.append(row)
    return rows


def is_of(alarm: Alarm, row: Row) -> bool:
    """Whether an alarm may be of the fault of a row: it is one of its alarms, and names one of its channels, or a process."""
    return alarm.name in row.fault.alarms and (alarm.label.partition("-")[0] in row.programmes or ":" in alarm.label)


def false_ones(rows: Iterable[Row], alarms: Alarms) -> list[str]:
    """The alarms that rang though no fault had them to, each with the fault before it."""
    found, known = [], list(rows)
    for it in alarms.rang:
        if not any(is_of(it, row) and row.begin <= it.begin <= row.end + RINGS for row in known):
            before = max((row for row in known if row.begin <= it.begin), key=lambda row: row.begin, default=None)
            after = f"{it.begin - before.begin:.0f} s after the begin of {before.fault.name}" if before else "before any fault"
            found.append(f"{it.name} of {it.label}, {after}")
    return found


def faults_of(rows: Iterable[Row], has_alarms: bool) -> list[str]:
    """What doesn't hold, a sentence each."""
    found = []
    for it in rows:
        if it.equal > EQUAL:
            found.append(f"{it.fault.name}: renditions were apart until {it.equal:.1f} s after its end")
        if it.healed > it.next - it.end - 5:
            found.append(f"{it.fault.name}: playlists weren't right before the next fault: {', '.join(it.words)}")
        if has_alarms and it.fault.is_due and it.named is None:
            found.append(f"{it.fault.name}: no alarm named it within {NAMED:.0f} s of its end")
    return found
