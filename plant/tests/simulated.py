#!/usr/bin/env python3
"""Plays days of a programme by a clock of its own, with faults, and tells which promises its feed broke.

  plant/tests/simulated.py [--seconds S | --count N] [--seed N] [--each S] [--rules]      days from a seed on
  plant/tests/simulated.py --play SEED        one day, with all that happens
  plant/tests/simulated.py --shrink SEED [--kind WORD] [--loud]      the fewest faults with which a day still breaks a promise
  plant/tests/simulated.py --named [NAME]     the named days

Families of days have ranges of seeds, with those of ladders from 500,000 in it on:
  1  all kinds of programmes
  1000000  packagers spell their segments otherwise in each list
  2000000  sound has segments twice as long
  3000000  each rendition is of a kind of its own
{families}

A seed is the same day each time. Prints for each kind of breach how many days had it, and their seeds. The status is 1 if there was any.
"""
import argparse
import os
import signal
import sys
import time
import traceback
from collections import Counter
from dataclasses import replace

sys.dont_write_bytecode = True
HERE = os.path.dirname(os.path.abspath(__file__))
sys.path[:0] = [HERE, os.path.dirname(HERE)]

from simulation import families  # noqa: E402
from simulation.controller import Controller  # noqa: E402
from simulation.group import GroupWorld, draw_group  # noqa: E402
from simulation.named import NAMED  # noqa: E402
from simulation.plan import Plan, draw  # noqa: E402
from simulation.viewers import Breach  # noqa: E402
from simulation.world import RulesController, World  # noqa: E402

MOST_SEEDS = 6  # that are printed for a kind


WAYS = {"is_by_rules": False, "has_text": True, "is_group": False}  # how all days are played


def drawn(seed: int, each: float) -> Plan:
    """The plan of a seed, of one machine or of several."""
    return draw_group(seed, each) if WAYS["is_group"] else families.draw(seed, each) if seed >= families.FIRST else draw(seed, each)


def play(plan: Plan, is_loud: bool = False) -> World:
    """Plays the day of a `plan`; the world at its end, with its breaches in `found`. What the feed raises is a breach, too."""
    world = (GroupWorld if WAYS["is_group"] else World)(plan, RulesController if WAYS["is_by_rules"] else Controller, is_loud, WAYS["has_text"])
    try:
        world.found = world.run()
    except Exception as fault:  # noqa: BLE001
        places = [it for it in traceback.extract_tb(fault.__traceback__)]
        place = f"{os.path.basename(places[-1].filename)}:{places[-1].lineno}"
        world.found = [*world.breaches, Breach(f"raises {type(fault).__name__} {place}", world.now, "", str(fault)[:200])]
        if is_loud:
            world.log.append(traceback.format_exc())
    return world


def shrunk(plan: Plan, kind: str) -> Plan:
    """The `plan` with as few faults as it needs for a breach of the `kind`."""
    def is_broken(plan: Plan) -> bool:
        return any(it.kind == kind for it in play(plan).found)
    count = max(1, len(plan.faults) // 2)
    while count:
        place = 0
        while place < len(plan.faults):
            fewer = replace(plan, faults=plan.faults[:place] + plan.faults[place + count:])
            if is_broken(fewer):
                plan = fewer
            else:
                place += count
        count //= 2
    return plan


def described(plan: Plan) -> str:
    """What a plan is, but for its faults."""
    sound = {-1: "at frames", 0: "alike"}.get(plan.cuts, f"by {plan.cuts} ms")
    return (f"seed {plan.seed}: {' '.join(plan.names)}, segments of {plan.target / 1000:g} s, {plan.window} listed, sound cut {sound}, {plan.style} by {' '.join(plan.speakers)}, "
            f"{'a process each' if plan.processes else 'one process'}, {'a' if plan.has_fallback else 'no'} fallback, {'asks' if plan.asks else 'decided ahead'}"
            f"{', marked by discontinuities' if plan.marks else ''}{'' if plan.in_step else ', numbers of their own'}\n"
            + "\n".join(f"  break {it.name} {it.start / 1000:g} to {it.end / 1000:g} (planned {it.planned / 1000:g}), announced {it.announces / 1000:g} before, decided {it.ahead / 1000:g} before" for it in plan.breaks))


def tell_day(plan: Plan) -> bool:
    """Plays a day and prints all of it; whether no promise was broken."""
    world = play(plan, True)
    print(described(plan))
    print("\n".join(world.log))
    print("\n".join(f"BROKEN {it.at:8.2f} {it.kind} {it.who}: {it.text}" for it in world.found))
    print(dict(world.tally))
    return not world.found


def tell_shrunk(plan: Plan, is_loud: bool, kind: str) -> bool:
    """Prints the fewest faults with which a day still breaks its first promise (of a `kind`, if one is named), and if it `is_loud` all that
    happens then; whether it breaks none."""
    found = [it for it in play(plan).found if kind in it.kind]
    if not found:
        print(f"seed {plan.seed} breaks no promise")
        return True
    fewest = shrunk(plan, found[0].kind)
    print(described(fewest))
    print("\n".join(f"  {it}" for it in fewest.faults))
    world = play(fewest, is_loud)
    print("\n".join(world.log))
    print("\n".join(f"BROKEN {it.at:8.2f} {it.kind} {it.who}: {it.text}" for it in world.found))
    return False


def tell_days(said: argparse.Namespace) -> bool:
    """Plays days, and prints what they broke; whether they broke nothing."""
    begun, seed, total, seeds, hours = time.process_time(), said.seed, Counter[str](), dict[str, list[int]](), 0.0
    while (time.process_time() - begun < said.seconds) if said.count is None else seed < said.seed + said.count:
        plan = drawn(seed, said.each)
        world = play(plan)
        for kind in {it.kind for it in world.found}:
            seeds.setdefault(kind, []).append(seed)
        total += world.tally
        total["steps"] += world.feed.steps
        hours += plan.length / 3600
        seed += 1
    used, days = time.process_time() - begun, seed - said.seed
    print(f"{days} days, {hours:.2f} hours, {60 * hours / used:.1f} hours a minute of processor, {total['faults'] / max(hours, 1e-9):.0f} faults an hour; "
          + ", ".join(f"{count} {name}" for name, count in sorted(total.items())))
    for kind, found in sorted(seeds.items(), key=lambda it: -len(it[1])):
        print(f"  {kind}: {len(found)} days: {' '.join(map(str, found[:MOST_SEEDS]))}")
    return not seeds


def tell_named(name: str) -> bool:
    """Plays the named days whose names have `name`, and prints what each broke; whether they broke nothing."""
    is_well = True
    for title, plan in NAMED.items():
        if name not in title:
            continue
        world = play(plan, bool(name))
        print(f"{'well  ' if not world.found else 'BROKEN'} {title}")
        print("".join(f"{line}\n" for line in world.log) + "".join(f"    {it.at:8.2f} {it.kind} {it.who}: {it.text}\n" for it in world.found[:None if name else 6]), end="")
        is_well = is_well and not world.found
    return is_well


def main(words: list[str]) -> int:
    """The status of a run with these words."""
    it = argparse.ArgumentParser(description=(__doc__ or "").format(families=families.told()), formatter_class=argparse.RawDescriptionHelpFormatter)
    it.add_argument("--seconds", type=float, default=20.0, help="of processor (20)")
    it.add_argument("--count", type=int, help="of days, in place of seconds")
    it.add_argument("--seed", type=int, default=1, help="the first one (1)")
    it.add_argument("--each", type=float, default=20.0, help="seconds from fault to fault (20)")
    it.add_argument("--rules", action="store_true", help="controllers by adsplice_rules, which are slow")
    it.add_argument("--play", type=int, metavar="SEED")
    it.add_argument("--shrink", type=int, metavar="SEED")
    it.add_argument("--named", nargs="?", const="", metavar="WORD", help="the named days, or with all that happens those whose names have the word")
    it.add_argument("--loud", action="store_true", help="with --shrink: all that happens")
    it.add_argument("--kind", default="", help="with --shrink: of the breach")
    it.add_argument("--copies", action="store_true", help="the feed's log keeps copies of states, and no text")
    it.add_argument("--group", action="store_true", help="three machines that have a store in common, with its faults and theirs")
    said = it.parse_args(words)
    WAYS.update(is_by_rules=said.rules, has_text=not said.copies, is_group=said.group)
    if said.named is not None:
        return 0 if tell_named(said.named) else 1
    if said.play is not None:
        return 0 if tell_day(drawn(said.play, said.each)) else 1
    if said.shrink is not None:
        return 0 if tell_shrunk(drawn(said.shrink, said.each), said.loud, said.kind) else 1
    return 0 if tell_days(said) else 1


if __name__ == "__main__":
    signal.signal(signal.SIGPIPE, signal.SIG_DFL)
    try:
        sys.exit(main(sys.argv[1:]))
    except KeyboardInterrupt:
        sys.exit(130)
