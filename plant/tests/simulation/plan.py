"""The plan of a simulated day: a programme, its breaks, who is around it, and the faults, all by a seed.

A plan is a value. A day that is played from it is the same each time, and a fault that is left out changes no other one.
"""
from __future__ import annotations

import random
from dataclasses import dataclass, field
from typing import NamedTuple

ALL = "all"  # in place of a rendition: each of them
FALLBACK = "fallback"


class Span(NamedTuple):
    """A break of the programme: its `name`, its `start`, its real `end` and the `planned` one, in milliseconds of the programme; how long
    before its start a date range `announces` it; and how long before its start it is decided, if nobody asks (`ahead`)."""

    name: str
    start: int
    end: int
    planned: int
    announces: int
    ahead: int


class Fault(NamedTuple):
    """A fault of a `kind` at the moment `at` (in seconds), of a rendition or ALL (`who`), with a `size` (mostly seconds) and a `number`."""

    at: float
    kind: str
    who: str = ALL
    size: float = 0.0
    number: int = 0

    def __str__(self) -> str:
        return f"Fault({self.at}, {self.kind!r}, {self.who!r}, {self.size}, {self.number})"


class Twin(NamedTuple):
    """A second packager behind the address of each rendition: it lists segments so many milliseconds later (`late`), counts its media numbers from
    `base`, and has names of so many digits (`digits`). A look is answered by the packager that answered the last one with the probability `stays`."""

    late: int
    base: int
    digits: int
    stays: float


@dataclass(frozen=True)
class Plan:
    """A day of `length` seconds with the renditions `names`, the first of which is the picture. `target`: milliseconds of a segment; `window`:
    segments of a list; `cuts`: where the sound is cut (milliseconds of its shift, or -1: at frames); `style` of the signals; `speakers`:
    who signals; `processes`: whether each rendition has a controller of its own; `has_fallback`; `asks`: whether decisions are asked for;
    `marks`: whether the packager has discontinuities where breaks begin and end; `in_step`: whether they number alike; `long`: the renditions whose
    segments are twice as long; `later`: those that the feed reads from a moment on, in seconds; `fill`: in which renditions a break begins that one
    can't begin; `kinds`: whether each rendition is of a kind of its own, so that none has segments for another one; `keys`: how EXT-X-KEY states them
    (not at all, `number` as IV, `stated` IV, `sample`: SAMPLE-AES with its IV), each for so many segments (`rotates`; 0: all); `maps`: where EXT-X-MAP
    stands (nowhere, `once` after the first key, `first` before it, `each` after each key); `twin`: a second packager, if there is one."""

    seed: int
    names: tuple[str, ...] = ("v", "a")
    length: float = 240.0
    target: int = 2000
    window: int = 8
    cuts: int = 0
    style: str = "ranges"  # cues, cues without a duration, ranges
    speakers: tuple[str, ...] = ("v", "a")
    processes: bool = True
    has_fallback: bool = True
    asks: bool = False
    marks: bool = False
    in_step: bool = True
    long: tuple[str, ...] = ()
    later: tuple[tuple[str, float], ...] = ()
    fill: str = "all"
    kinds: bool = False
    breaks: tuple[Span, ...] = ()
    faults: tuple[Fault, ...] = field(default=())
    keys: str = ""
    rotates: int = 0
    maps: str = ""
    twin: Twin | None = None

    def times(self, name: str) -> int:
        """How many times the target a segment of the rendition `name` lasts."""
        return 2 if name in self.long else 1

    def channel(self, name: str) -> str:
        """The name of the channel of the rendition `name`."""
        return f"p-{name}" if len(self.names) > 1 else "p"


SPELLED = 1_000_000  # from this seed on packagers spell their segments otherwise in each list, in one of so many ways:
WAYS = 6
OWN = 3_000_000  # from this seed on each rendition is of a kind of its own, and has nobody's segments; packagers spell as they do before SPELLED
LONGER = 2_000_000  # from this seed on sound, if there is some, has segments twice as long; packagers spell as they do before SPELLED
SPELLINGS: dict[int, tuple[str, ...]] = {  # what is spelled otherwise in each list, by the number of the fault
    0: (), 1: ("query",), 2: ("line ends",), 3: ("folder",), 4: ("host",), 5: ("corrected",), 6: ("part",), 7: ("section",), 8: ("section", "query"), 9: ("section", "host"),
    10: ("section", "key"), 11: ("key",), 12: ("key", "query"), 13: ("key's folder",), 14: ("key", "folder"), 15: ("folder", "corrected"), 16: ("host", "corrected"), 17: ("grows",),
    18: ("folder", "grows"), 19: ("host", "grows"), 20: ("query", "grows"), 21: ("query", "corrected"), 22: ("host", "query", "part")}
STYLES = ("cues", "cues", "endless cues", "ranges", "ranges")


def breaks_of(dice: random.Random, length: float, target: int, first: int = 12) -> tuple[Span, ...]:
    """The breaks of a programme of `length` seconds, after so many segments (`first`) or a few more: some end early, some aren't as long as whole segments."""
    found, at = [], first + dice.randint(0, 4)
    while at * target < (length - 20) * 1000:
        count = dice.choice((2, 3, 5, 8))
        planned = count * target - dice.choice((0, 0, 0, 0, target // 10))
        end = planned - target if count > 2 and dice.random() < 0.2 else planned
        found.append(Span(f"b{len(found)}", at * target, at * target + end, at * target + planned, dice.randint(0, 3) * target, dice.choice((1500, 5000, 30_000))))
        at += count + dice.choice((0, 4, 8, 12, 16))
    return tuple(found)


KINDS: dict[str, tuple[tuple[float, ...], tuple[int, ...]]] = {  # of each fault the sizes and the numbers that it may have
    "begins again": ((0, 2, 4, 6), (0,)),
    "lags": ((0.5, 1.5, 3.0, 5.0), (4, 10, 20)),
    "stands still": ((8.0, 20.0, 40.0), (0,)),
    "list cut off": ((0.0,), (1, 2, 3)),
    "caches by turns": ((2.0, 4.0), (5, 20)),
    "signals late": ((2.0, 4.0, 6.0), (0,)),
    "list late": ((1.0, 3.0, 6.0), (2, 5)),
    "spelled otherwise": ((0.0,), (1, 2, 0)),
    "unread": ((1.0, 3.0, 6.0, 9.0), (0,)),
    "request lost": ((0.0, 1.0), (0, 1, 2)),
    "answer lost": ((0.0, 1.0), (0, 1, 2)),
    "controller slow": ((0.3, 1.5, 3.0, 7.0), (3, 8)),
    "controller killed": ((0.1, 1.0, 3.0, 6.0), (0,)),
    "feed ended": ((0.1, 0.5, 2.0, 5.0), (0, 1, 2, 3, 4, 5, 6)),
    "packager's clock": ((-180.0, -1.0, 0.5, 3600.0), (0,)),
    "machine's clock": ((-3600.0, -1.0, 5.0, 3600.0), (0,)),
    "decision late": ((1.0, 3.0, 8.0), (0,)),
    "decision removed": ((0.1, 1.0, 4.0, 15.0), (0,)),
    "decision changed": ((0.1, 1.0, 4.0, 15.0), (0,)),
    "decision wrong": ((0.0,), (0, 1, 2, 3)),
    "no decision": ((0.0,), (0,)),
    "decision withdrawn": ((0.1, 2.0, 10.0), (0,)),
    "decisions apart": ((0.5, 1.5, 4.0), (0,)),
    "fallback changed": ((0.0, 0.7, 3.0), (0,)),
    "fallback removed": ((0.0, 5.0), (0,)),
    "store refuses": ((1.0, 4.0, 12.0), (0,)),
}


def faults_of(dice: random.Random, length: float, names: tuple[str, ...], each: float) -> tuple[Fault, ...]:
    """Faults of some kinds, one in each `each` seconds on the average."""
    kinds = [it for it in KINDS if dice.random() < 0.5] or ["controller killed"]
    found, at = [], dice.expovariate(1 / each)
    while at < length - 15:
        kind = dice.choice(kinds)
        sizes, numbers = KINDS[kind]
        who = ALL if dice.random() < 0.4 else dice.choice(names)
        found.append(Fault(round(at, 2), kind, who, dice.choice(sizes), dice.choice(numbers)))
        at += dice.expovariate(1 / each)
    return tuple(found)


def draw(seed: int, each: float = 20.0) -> Plan:
    """The plan of a `seed`, with a fault in each `each` seconds."""
    dice = random.Random(seed)
    names = ("v", "a", "w")[:dice.choice((1, 2, 2, 3))]
    target, length = dice.choice((2000, 2000, 4000, 6000)), 240.0
    style = dice.choice(STYLES)
    speakers = names if dice.random() < 0.5 else names[:1]
    asks = style != "ranges" or dice.random() < 0.5
    plan = Plan(seed, names, length, target, dice.choice((6, 8, 12)), dice.choice((0, 0, 20, 700, -1)), style, speakers, dice.random() < 0.5,
                dice.random() < 0.7, asks, dice.random() < 0.3, dice.random() < 0.8)
    breaks, faults = breaks_of(dice, length, target), faults_of(dice, length, names, each)
    if seed >= OWN:
        return Plan(**{**vars(plan), "breaks": breaks, "faults": faults, "kinds": True})
    if seed >= LONGER:
        return Plan(**{**vars(plan), "breaks": breaks, "faults": faults, "long": tuple(it for it in names if it == "a")})
    if seed >= SPELLED:
        others = [it for it in faults if it.kind != "spelled otherwise"]
        faults = tuple(sorted([Fault(round(dice.uniform(1, 60), 2), "spelled otherwise", ALL, 0.0, seed % WAYS + 1), *others]))
    return Plan(**{**vars(plan), "breaks": breaks, "faults": faults})
