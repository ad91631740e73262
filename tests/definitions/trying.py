"""Tries turned equations: the rows of the tables that rest on an equation are computed with it, until one has another value."""
from __future__ import annotations

import gc
import multiprocessing
import re
import resource
import signal
import sys
import time
from collections import Counter
from contextlib import contextmanager
from typing import Any, Callable, Iterable, Iterator, NamedTuple

from . import computing, data, reading, turning
from .computing import Key, Lacking, Machine, Maker, Writer
from .library import TooLarge
from .noting import Notes
from .reading import Unread

IS_TABLE = re.compile(r"(?m)^\w+ = (?:\(.*?\) → )?HasValues ")
ROW_SECONDS = 5  # (a row takes 0.4 s at most)
CALL_SECONDS, TIMES = 1, 20  # (a turned equation may take a second, and so many times as long as it takes as it is)
TOO_LONG, TOO_DEEP = "it takes too long", "it goes too deep"
ENDLESS = (f"Lacking {TOO_LONG}", TOO_DEEP)
MOST_ENDLESS = 8  # (a turned equation of which so many calls don't end isn't tried further)
ERRORS = (Lacking, TypeError, KeyError, IndexError, RecursionError, AttributeError, ValueError, OverflowError, MemoryError, TooLarge)


class Row(NamedTuple):
    """A row of a table: its table, its place from 0, and a function that gives its value and the stated one."""

    table: Key
    place: int
    values: Callable[[], tuple[Any, Any]]


class Turned(NamedTuple):
    """A turned equation: its definition, which of its equations, how it is named, and the definition's whole text. Where several are turned
    at once, the texts of the other definitions too."""

    key: Key
    equation: int
    label: str
    text: str
    others: tuple[tuple[Key, str], ...] = ()

    @property
    def place(self) -> str:
        return place_of(self.key)


def place_of(key: Key) -> str:
    return f"{key[0]}/specs/{key[1].replace('.', '/')}"


class Verdict(NamedTuple):
    """What came of a turned equation: `refused` by this table, `passes`, or `unread` for this reason."""

    word: str
    said: str


def flat(text: str) -> str:
    return " ".join(text.split())


def too_long(*_: Any) -> None:
    raise Lacking(TOO_LONG)


@contextmanager
def at_most(seconds: float) -> Iterator[None]:
    """Stops what is computed in this context after so many seconds of the processor."""
    signal.setitimer(signal.ITIMER_VIRTUAL, seconds)
    try:
        yield
    finally:
        signal.setitimer(signal.ITIMER_VIRTUAL, 0)


class Trials:
    """The rows of all tables, and which equations each of them rests on."""

    def __init__(self, definitions: Any, theorem: Any, root: str, kit: str) -> None:
        self.definitions = definitions
        self.names = computing.Names(theorem, root, kit)
        self.machine = Machine(self.names)
        self.types = data.types_of(root, sorted(definitions.repository.crates))
        self.rows: list[Row] = []
        self.costs: list[float] = []
        self.notes = Notes()
        self.failures: list[str] = []

    # ---- rows

    def read_table(self, key: Key) -> None:
        """Takes the rows of a table, which may hold for all values of some variables."""
        body = self.machine.definition(key).equations[0].body
        writer, free = Writer(self.machine, key[:2]), set()
        while body.kind == "binary" and body.parts[0] == "→":
            name = body.parts[1].parts[0]
            free.add(name)
            self.machine.space[writer.variable(name)] = Maker((f"any {name}",))
            body = body.parts[2]
        function, rows = body.parts[1][-2:]
        names = frozenset(free)
        said, place = writer.expression(function, names), 0
        while rows.kind == "binary":
            row = writer.expression(rows.parts[1], names)
            values = eval(f"lambda: (lambda row: (({said})(row[0]), row[1]))({row})", self.machine.space)
            self.rows.append(Row(key, place, values))
            rows, place = rows.parts[2], place + 1
        while self.machine.waiting:
            self.machine.make(self.machine.waiting[-1])

    def prepare(self, tables: Iterable[Key]) -> None:
        """Computes each row, notes what it rests on, and what has another value than the stated one."""
        for key in sorted(tables):
            self.read_table(key)
        self.machine.take_notes(self.notes)
        for at, row in enumerate(self.rows):
            self.notes.begin(at)
            self.machine.kept.clear()
            begun = time.monotonic()
            try:
                with at_most(ROW_SECONDS):
                    value, stated = row.values()
                why = None if value == stated else "has another value than the stated one"
            except ERRORS as it:
                why = f"isn't computed: {type(it).__name__} {it}"
            self.costs.append(time.monotonic() - begun)
            if why:
                self.failures.append(f"{row.table[1]}.{row.table[2]}, row {row.place + 1}: {why}")
        self.machine.kept.clear()
        self.machine.use_notes(self.notes)

    # ---- turned equations

    def around(self, key: Key) -> turning.Around:
        scope, repository = self.names.module(*key[:2]).scope, self.definitions.repository

        def sibling(said: str) -> str | None:
            alias, _, name = said.rpartition(".")
            if alias:
                crate = scope.modules[alias][0] if alias in scope.modules else None
            else:
                crate = scope.names[name][0] if name in scope.names else key[0]
            those = self.types.groups.get((crate, name), []) if alias or self.names.is_constructor(key[:2], name) else []
            at = those.index(name) if name in those else 0
            for one in those[at + 1 :] + those[:at]:
                if alias or self.names.is_constructor(key[:2], one):
                    return f"{alias}.{one}" if alias else one
            return None

        def types_of(said: str) -> tuple[str, ...] | None:
            it = repository.led_to(repository.scopes[self.definitions.by_key[key].file], key[:2], said)
            return self.machine.definition(it.key).types if it and not self.definitions.is_type(it.key) else None

        return turning.Around(sibling, types_of, lambda name: self.names.is_constructor(key[:2], name))

    def turner(self, key: Key) -> turning.Turner:
        text = self.names.module(*key[:2]).definitions[key[2]]
        return turning.Turner(text, self.machine.definition(key), self.types, self.around(key))

    def turned_at_once(self, keys: Iterable[Key]) -> Iterator[Turned]:
        """The definitions of each crate, with all of its texts compared in another way."""
        texts: dict[tuple[str, str], list[tuple[Key, str]]] = {}
        for key in keys:
            turner = self.turner(key)
            turner.all()
            for way, turns in turner.compared.items():
                text = turner.text
                for it in sorted(turns, key=lambda it: -it.start):
                    text = text[: it.start] + it.new + text[it.end :]
                if turns and self.is_computed(key):
                    texts.setdefault((key[0], way), []).append((key, text))
        for (crate, way), those in texts.items():
            if len(those) > 1:
                (key, text), *others = those
                yield Turned(key, 0, f"{crate}: all texts: compared by {way}", text, tuple(others))

    def turned(self, key: Key) -> Iterator[Turned]:
        """The turned equations of a definition."""
        turner = self.turner(key)
        text = turner.text
        counts: Counter[str] = Counter()
        for it in turner.all():
            label = f"{place_of(key)}: {key[2]} {it.equation + 1}: {flat(text[it.start : it.end])} => {flat(it.new)}"
            counts[label] += 1
            number = f" (place {counts[label]})" if counts[label] > 1 else ""
            yield Turned(key, it.equation, label + number, text[: it.start] + it.new + text[it.end :])

    def is_computed(self, key: Key) -> bool:
        """Whether a table computes a definition."""
        return key in self.machine.first_marks

    def resting(self, it: Turned) -> list[int]:
        """The rows that rest on a turned equation, the quickest first."""
        marks = self.marks_of(it)
        return sorted(set().union(*map(self.notes.rows_of, marks)), key=lambda at: self.costs[at])

    def marks_of(self, it: Turned) -> list[int]:
        return [self.machine.first_marks[it.key] + it.equation] if self.is_computed(it.key) else []

    def verdict(self, it: Turned) -> Verdict:
        """What the rows that rest on a turned equation say of it."""
        return self.judged_with({it.key: it.text} | dict(it.others), None if it.others else self.marks_of(it))

    def judged_with(self, texts: dict[Key, str], marks: Iterable[int] | None = None) -> Verdict:
        """What the rows say of definitions with these texts; `marks`: those of the changed equations, if the others are as they were."""
        if marks is None:
            marks = [at for at, (key, _) in enumerate(self.machine.marks) if key in texts]
        try:
            with self.machine.changed(texts):
                return self.judged(list(marks))
        except (Lacking, Unread, KeyError, SyntaxError) as why:
            return Verdict("unread", f"{type(why).__name__} {why}")

    def table_over(self, it: Turned, verdict: Verdict) -> Key:
        """The table that refuses a turned equation, or else the quickest that rests on it."""
        rows = [self.rows[at].table for at in self.resting(it)]
        return next((key for key in rows if f"{key[1]}.{key[2]}" == verdict.said), rows[0])

    def judged(self, marks: list[int]) -> Verdict:
        """What the rows say that make another call of these equations than before, or so many calls that not all are noted.

        A row has the same value as before if each of its calls has. It has none if no call of it that differs has one.
        """
        tried: set[int] = set()
        why, endless = None, 0
        for rows, error in self.rows_that_differ(marks, tried):
            why, endless = why or error, endless + (error in ENDLESS)
            if endless == MOST_ENDLESS:
                break
            for at in sorted(rows - tried, key=lambda at: self.costs[at]):
                tried.add(at)
                said = self.said_of(self.rows[at])
                if said is True:
                    return Verdict("refused", f"{self.rows[at].table[1]}.{self.rows[at].table[2]}")
                why = why or said
        return Verdict("unread", why) if why else Verdict("passes", "")

    def rows_that_differ(self, marks: list[int], tried: set[int]) -> Iterator[tuple[set[int], str]]:
        """The rows of each call that gives something else now, or why one gives nothing; last the rows of which not all calls are noted."""
        calls = [(call, self.machine.marks[mark][0], given) for mark in marks for given, call in self.notes.calls[mark].items()]
        for call, key, given in sorted(calls, key=lambda it: it[0].seconds):
            if not tried.issuperset(call.rows):
                limit = CALL_SECONDS + TIMES * call.seconds
                said = self.computed(lambda: self.machine.space[self.machine.function(key)](*given) != call.value, limit)
                if said is True:
                    yield set(call.rows), ""
                elif said:
                    yield set(), said
        yield set().union(*(self.notes.more[mark] for mark in marks)), ""

    def said_of(self, row: Row) -> bool | str:
        """Whether a row has another value than the stated one, or why that isn't known."""

        def differs() -> bool:
            value, stated = row.values()
            return value != stated

        return self.computed(differs, ROW_SECONDS)

    def computed(self, test: Callable[[], bool], limit: float) -> bool | str:
        """What a test gives within so many seconds, or why it gives nothing."""
        self.machine.kept.clear()
        try:
            with at_most(limit):
                return test()
        except RecursionError:
            return TOO_DEEP
        except ERRORS as it:
            return f"{type(it).__name__} {it}"


SHARED: list[Any] = []  # (what the workers have from the process that made them: the trials, and the turned equations)


def verdict_at(at: int) -> tuple[int, Verdict]:
    trials, turned = SHARED
    return at, trials.verdict(turned[at])


def give_room() -> None:
    """Leaves room for deep recursion (the rows as they are go less than 600 calls deep)."""
    soft, hard = resource.getrlimit(resource.RLIMIT_STACK)
    most = 1 << 29
    resource.setrlimit(resource.RLIMIT_STACK, (most if hard == resource.RLIM_INFINITY else min(most, hard), hard))
    sys.setrecursionlimit(5000)
    signal.signal(signal.SIGVTALRM, too_long)


def end_at_once() -> None:
    """Lets a worker end at SIGTERM: with this script's own handler it can wait for ever, as the pool ends."""
    signal.signal(signal.SIGTERM, signal.SIG_DFL)
    signal.signal(signal.SIGINT, signal.SIG_IGN)


def verdicts_on(trials: Trials, turned: list[Turned], workers: int, log: Any = None) -> list[Verdict]:
    """The verdicts on these, by so many processes."""
    SHARED[:] = [trials, turned]
    gc.freeze()  # (else each process would copy all that is noted)
    found: dict[int, Verdict] = {}
    with multiprocessing.get_context("fork").Pool(workers, end_at_once) as pool:
        for at, verdict in pool.imap_unordered(verdict_at, range(len(turned)), chunksize=8):
            found[at] = verdict
            if log:
                log(turned[at], verdict)
        pool.close()
        pool.join()
    return [found[at] for at in range(len(turned))]
