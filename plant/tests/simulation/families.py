"""Families of days, each with a range of seeds of its own: what origins do to lists beside the faults that days have.

A family's first LADDERS seeds are of a channel by itself, and those after them of ladders. Its days are short.
"""
from __future__ import annotations

import random
from collections.abc import Callable
from dataclasses import replace
from typing import NamedTuple

from .plan import ALL, STYLES, Fault, Plan, Twin, breaks_of, faults_of

SIZE = 1_000_000  # seeds of a family
LADDERS = 500_000  # from this one on its days are of ladders
FIRST = 4_000_000  # the first seed of the first family
SEGMENTS = 40  # of a day
Draw = Callable[[random.Random, Plan], Plan]


def spelled(dice: random.Random, *numbers: int) -> Fault:
    """Lists are spelled otherwise by one of the `numbers`, from the begin of the day on or from a moment of it."""
    return Fault(dice.choice((0.0, 0.0, round(dice.uniform(1, 40), 2))), "spelled otherwise", ALL, 0.0, dice.choice(numbers))


def sections(dice: random.Random, plan: Plan) -> Plan:
    """A token in EXT-X-MAP changes in each list; in some days keys, segments and hosts change, too."""
    keys = dice.choice(("", "", "stated", "sample"))
    one = spelled(dice, *(7, 8, 9, *((10,) if keys else ())))
    return replace(plan, maps=dice.choice(("once", "each")), keys=keys, faults=(one, *plan.faults))


def keys(dice: random.Random, plan: Plan) -> Plan:
    """A token in EXT-X-KEY changes in each list, or its folder does."""
    return replace(plan, keys=dice.choice(("number", "stated", "sample")), rotates=dice.choice((0, 3, 5)), faults=(spelled(dice, 11, 12, 13, 14), *plan.faults))


def segments(dice: random.Random, plan: Plan) -> Plan:
    """Tokens are in the path, or hosts change by turns; the newest segment's duration is corrected, or that segment grows."""
    return replace(plan, faults=(spelled(dice, 3, 4, 5, 15, 16, 17, 17, 18, 19, 20, 21, 22), *plan.faults))


def rotated(dice: random.Random, plan: Plan) -> Plan:
    """EXT-X-MAP stands once, at the head, while the key rotates."""
    maps = dice.choice(("once", "once", "first"))
    return replace(plan, maps=maps, keys=dice.choice(("stated", "sample") if maps == "once" else ("stated", "sample", "number")), rotates=dice.choice((2, 3, 5)),
                   faults=(*((spelled(dice, 7, 8, 10, 12),) if dice.random() < 0.4 else ()), *plan.faults))


def unread(dice: random.Random, plan: Plan) -> Plan:
    """Lists aren't read for about as long as they last, or for longer."""
    lasts, found, at = plan.window * plan.target / 1000, list[Fault](), 4 * plan.target / 1000  # (each rendition has a list by then)
    while (at := at + dice.uniform(2, 30)) < plan.length - 20:
        size = round(lasts * dice.choice((dice.uniform(0.8, 1.2), dice.uniform(1, 2.5))), 2)
        found.append(Fault(round(at, 2), "unread", ALL if dice.random() < 0.6 else dice.choice(plan.names), size))
        at += size
    return replace(plan, faults=(*found, *(it for it in plan.faults if it.kind != "unread")))


def turns(dice: random.Random, plan: Plan) -> Plan:
    """Two packagers answer by turns behind one address, not in step: they count from other numbers, or name segments otherwise."""
    late = dice.choice((0, 300, 700, plan.target // 2, plan.target, plan.target * 3 // 2))
    told = 2 * plan.target / 1000  # (one segment by a clock that was just set doesn't tell another packager from one that begins again)
    return replace(plan, twin=Twin(late, dice.choice((7, 8, 1007, 3)), dice.choice((0, 0, 5)), dice.choice((0.0, 0.5, 0.5, 0.85, 0.95))),
                   faults=tuple(it for it in plan.faults if it.kind != "packager's clock" or it.at >= told))


def clocks(dice: random.Random, plan: Plan) -> Plan:
    """The packager's clock is set while lists aren't read until one segment or two of the last one are left; or within a break, and then a controller is
    killed. (By about half a segment it isn't set: nobody could tell with which segment a break begins then.)"""
    found, target = list[Fault](), plan.target / 1000
    for it in plan.breaks:
        begin, by = dice.uniform(it.start - plan.target, it.end) / 1000, dice.choice((-180.0, -60.0, -0.5, 0.5, 30.0, 3600.0))
        by = round(by + dice.choice((0.0, dice.uniform(-0.3, 0.3))), 2)
        if dice.random() < 0.5:
            size = (plan.window - dice.choice((1, 1, 2)) + dice.uniform(-0.5, 0.5)) * target
            found += [Fault(round(begin, 2), "unread", ALL, round(size, 2)), Fault(round(begin + dice.uniform(0, size), 2), "packager's clock", ALL, by)]
        else:
            killed = begin + dice.uniform(0.2, plan.window * target)
            found += [Fault(round(begin, 2), "packager's clock", ALL, by), Fault(round(killed, 2), "controller killed", dice.choice((ALL, *plan.names)), dice.choice((0.1, 1.0, 3.0)))]
    return replace(plan, faults=(*found, *plan.faults))


class Family(NamedTuple):
    """A family: what its days have (`text`), and how that is drawn into a plan."""

    text: str
    draw: Draw


FAMILIES = (
    Family("a token in EXT-X-MAP changes in each list", sections),
    Family("a token in EXT-X-KEY changes in each list", keys),
    Family("tokens in paths, hosts by turns, newest segments that grow or whose durations are corrected", segments),
    Family("EXT-X-MAP stands once while the key rotates", rotated),
    Family("lists aren't read for longer than they last", unread),
    Family("two packagers by turns behind one address, not in step", turns),
    Family("clocks are set where lists hardly overlap, or within breaks before controllers are killed", clocks),
)


def draw(seed: int, each: float) -> Plan:
    """The plan of the `seed` of a family, with a fault of the usual kinds in each `each` seconds."""
    dice, place = random.Random(seed), seed % SIZE
    names = ("v",) if place < LADDERS else ("v", "a", "w")[:dice.choice((2, 2, 3))]
    target = dice.choice((2000, 2000, 2000, 4000))
    length = SEGMENTS * target / 1000
    plan = Plan(seed, names, length, target, dice.choice((5, 6, 8)), dice.choice((0, 0, 20, 700, -1)), dice.choice(STYLES), names if dice.random() < 0.5 else names[:1],
                dice.random() < 0.5, dice.random() < 0.7, dice.random() < 0.5, dice.random() < 0.3, dice.random() < 0.8)
    plan = replace(plan, asks=plan.asks or plan.style != "ranges", breaks=breaks_of(dice, length, target, 6))
    others = [it for it in faults_of(dice, length, names, each) if it.kind != "spelled otherwise"]
    plan = FAMILIES[(seed - FIRST) // SIZE].draw(dice, replace(plan, faults=tuple(others)))
    return replace(plan, faults=tuple(sorted(plan.faults)))


def told() -> str:
    """The families with their seeds, a line each."""
    return "\n".join(f"  {FIRST + place * SIZE}  {it.text}" for place, it in enumerate(FAMILIES))
