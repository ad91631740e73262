"""Notes of the calls that rows make: what a definition gave for which arguments, in which rows, and in how long."""
from __future__ import annotations

import time
from collections import defaultdict
from typing import Any, Iterable

MOST = 512  # (so many calls of an equation are noted in a row)
WORTH = 3e-5  # (from so many seconds a call on it is quicker to look up what it gave)


class Call:
    """A call: what it gave, the places of the rows that made it, and how many seconds it took."""

    __slots__ = ("value", "rows", "seconds")

    def __init__(self, value: Any, row: int, seconds: float) -> None:
        self.value, self.rows, self.seconds = value, [row], seconds


class Notes:
    """The calls by the equations' marks and the arguments, and the rows that made more calls than are noted."""

    def __init__(self) -> None:
        self.calls: defaultdict[int, dict[tuple, Call]] = defaultdict(dict)
        self.more: defaultdict[int, set[int]] = defaultdict(set)
        self.counts: defaultdict[int, int] = defaultdict(int)
        self.row = 0

    def begin(self, row: int) -> None:
        """Calls are this row's from now on."""
        self.row = row
        self.counts.clear()

    def note(self, mark: int, given: tuple, begun: float, value: Any) -> Any:
        """Notes what an equation gave for these arguments, and gives it."""
        self.counts[mark] += 1
        if self.counts[mark] > MOST:
            return self.note_row(mark, value)
        call = self.calls[mark].get(given)
        if not call:
            self.calls[mark][given] = Call(value, self.row, time.perf_counter() - begun)
        elif call.rows[-1] != self.row:
            call.rows.append(self.row)
        return value

    def note_row(self, mark: int, value: Any) -> Any:
        """Notes that the row makes a call of this equation that isn't noted, and gives what that gave."""
        self.more[mark].add(self.row)
        return value

    def rows_of(self, mark: int) -> set[int]:
        """The rows that make calls of an equation."""
        return self.more[mark].union(*(it.rows for it in self.calls[mark].values()))

    def worth_keeping(self, marks: Iterable[int]) -> dict[tuple, Any]:
        """What the calls of these equations gave, if they took long; else nothing."""
        those = [it for mark in marks for it in self.calls[mark].items()]
        seconds = sum(call.seconds for _, call in those)
        return {given: call.value for given, call in those} if seconds > WORTH * len(those) else {}
