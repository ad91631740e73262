"""Days by hand: each has one mishap, or a few that meet, and a name."""
from __future__ import annotations

from dataclasses import replace

from .plan import ALL, Fault, Plan, Span

LENGTH = 130.0
BREAKS = (Span("b0", 30_000, 42_000, 42_000, 4000, 5000), Span("b1", 60_000, 70_000, 72_000, 4000, 5000), Span("b2", 96_000, 108_000, 108_000, 2000, 5000))
CALM = Plan(0, ("v", "a"), LENGTH, window=6, speakers=("v", "a"), breaks=BREAKS)
ALONE = replace(CALM, names=("v",), speakers=("v",))
LONG = replace(CALM, long=("a",))
UNDECIDED = tuple(Fault(0.1, "no decision") for _ in BREAKS)  # the fallback fills all breaks


def of(*faults: Fault, plan: Plan = CALM) -> Plan:
    """A calm day with these faults, or another `plan` with them."""
    return replace(plan, faults=faults)


def killed_within(at: float = 36.0) -> tuple[Fault, ...]:
    """Both processes of controllers are killed within the first break."""
    return Fault(at, "controller killed", "v", 1.0), Fault(at, "controller killed", "a", 1.0)


NAMED: dict[str, Plan] = {
    "nothing happens": of(),
    "nothing happens to a channel by itself": of(plan=ALONE),
    "nothing happens to sound that is cut elsewhere": of(plan=replace(CALM, cuts=700)),
    "the fallback changes within its break, and the controllers are killed": of(*UNDECIDED, Fault(34.0, "fallback changed"), *killed_within()),
    "the fallback goes within its break, and the controllers are killed": of(*UNDECIDED, Fault(34.0, "fallback removed"), *killed_within()),
    "a decision is removed within its break, and the controllers are killed": of(Fault(1.0, "decision removed", ALL, 9.0), *killed_within()),
    "a decision is written anew within its break, and the controllers are killed": of(Fault(1.0, "decision changed", ALL, 9.0), *killed_within()),
    "a decision is withdrawn within its break, and the controllers are killed": of(Fault(1.0, "decision withdrawn", ALL, 9.0), *killed_within()),
    "a decision comes late, and the controllers are killed": of(Fault(1.0, "decision late", ALL, 9.0), *killed_within()),
    "a decision is wrong in one rendition": of(Fault(1.0, "decision wrong", ALL, 0.0, 1)),
    "a date range comes with its first segment": of(Fault(15.0, "signals late", ALL, 2.0)),
    "a date range comes one list late": of(Fault(15.0, "signals late", ALL, 4.0)),
    "a date range comes one list late in the only rendition that signals": of(Fault(15.0, "signals late", "v", 4.0), plan=replace(CALM, speakers=("v",))),
    "the answers to the making of the channels are lost": of(Fault(0.0, "answer lost")),
    "the answer to the making of one channel is lost": of(Fault(0.0, "answer lost", "a", 1.0)),
    "the answers to lists that enter a break are lost": of(Fault(29.0, "answer lost", ALL, 0.0, 2)),
    "lists that enter a break are lost": of(Fault(29.0, "request lost", ALL, 0.0, 2)),
    "one controller is back 3 s before the other": of(Fault(50.0, "controller killed", "v", 1.0), Fault(50.0, "controller killed", "a", 4.0)),
    "one controller is back 3 s before the other, within a break": of(Fault(35.0, "controller killed", "v", 1.0), Fault(35.0, "controller killed", "a", 4.0)),
    "one controller is away where a break begins": of(Fault(29.0, "controller killed", "a", 6.0)),
    "one process of all controllers is killed within a break": of(Fault(36.0, "controller killed"), plan=replace(CALM, processes=False)),
    "the controllers are killed right after a break": of(*killed_within(45.0)),
    "packagers begin again twice": of(Fault(46.0, "begins again", ALL, 2), Fault(53.0, "begins again", ALL, 2)),
    "one packager begins again twice": of(Fault(46.0, "begins again", "a", 2), Fault(53.0, "begins again", "a", 2)),
    "packagers begin again within a break": of(Fault(36.0, "begins again", ALL, 2)),
    "the picture begins again within a break": of(Fault(36.0, "begins again", "v", 4)),
    "one packager begins again, and its controller is killed": of(Fault(46.0, "begins again", "a", 2), Fault(52.0, "controller killed", "a", 1.0)),
    "a list is older than the last": of(Fault(50.0, "list late", ALL, 6.0, 3)),
    "a list is older than the last, within a break": of(Fault(35.0, "list late", "a", 6.0, 3)),
    "a list is cut off": of(Fault(50.0, "list cut off", ALL, 0.0, 3)),
    "caches answer by turns": of(Fault(10.0, "caches by turns", ALL, 4.0, 100)),
    "the clock goes back within a break": of(Fault(35.0, "packager's clock", ALL, -180.0)),
    "the clock goes back within a break, and the controllers are killed": of(Fault(35.0, "packager's clock", ALL, -180.0), *killed_within(39.5)),
    "the clock goes back within a break, and the controllers are killed after it": of(Fault(35.0, "packager's clock", ALL, -180.0), *killed_within(50.0)),
    "the clock goes on by an hour, and the controllers are killed": of(Fault(35.0, "packager's clock", ALL, 3600.0), *killed_within(50.0)),
    "the clock of this machine goes on by an hour": of(Fault(35.0, "machine's clock", ALL, 3600.0), *killed_within(50.0)),
    "a rendition stands still for long": of(Fault(45.0, "stands still", "a", 40.0)),
    "the picture stands still for long": of(Fault(45.0, "stands still", "v", 40.0)),
    "a channel stands still for longer than its list": of(Fault(44.0, "stands still", "v", 14.0), plan=ALONE),
    "a rendition lags": of(Fault(20.0, "lags", "a", 6.0, 60)),
    "lists aren't read for longer than they last": of(Fault(44.0, "unread", ALL, 14.0)),
    "tokens change in all lists": of(Fault(10.0, "spelled otherwise", ALL, 0.0, 1)),
    "tokens change in all lists, and the controllers are killed": of(Fault(10.0, "spelled otherwise", ALL, 0.0, 1), *killed_within()),
    "the log can't be written for long, and the feed ends": of(Fault(25.0, "store refuses", ALL, 54.0), Fault(50.0, "feed ended", ALL, 1.0)),
    "the log can't be written where a break begins": of(Fault(28.0, "store refuses", ALL, 5.0)),
    "the log can't be written, and the controllers are killed": of(Fault(35.0, "store refuses", ALL, 6.0), *killed_within()),
    "breaks without an end have short pods, and the controllers are killed after them": of(
        *UNDECIDED, *killed_within(46.0), *killed_within(80.0), plan=replace(CALM, style="endless cues", asks=True)),
    "a break's ID comes again": of(plan=replace(CALM, breaks=(BREAKS[0], BREAKS[1], BREAKS[2]._replace(name="b0")))),
    "packagers number their lists each by its own": of(*killed_within(), plan=replace(CALM, in_step=False)),
    "sound has segments twice as long": of(plan=LONG),
    "sound has segments twice as long, and the fallback fills all breaks": of(*UNDECIDED, plan=LONG),
    "sound has segments twice as long, cut elsewhere": of(plan=replace(LONG, cuts=700)),
    "sound has segments twice as long, and the picture alone has cues": of(plan=replace(LONG, style="cues", speakers=("v",), asks=True)),
    "sound has segments twice as long, and the controllers are killed within a break": of(*killed_within(), plan=LONG),
    "sound has segments twice as long, and packagers begin again": of(Fault(46.0, "begins again", ALL, 2), plan=LONG),
    "sound has segments twice as long, and begins again": of(Fault(46.0, "begins again", "a", 2), plan=LONG),
    "sound has segments twice as long, and the clock goes back within a break": of(Fault(35.0, "packager's clock", ALL, -180.0), plan=LONG),
    "sound has segments twice as long, and stands still for long": of(Fault(45.0, "stands still", "a", 40.0), plan=LONG),
    "the picture has segments twice as long": of(plan=replace(CALM, long=("v",))),
    "a rendition comes later than the others": of(plan=replace(CALM, later=(("a", 50.0),))),
    "a rendition comes while the others show a break": of(plan=replace(CALM, later=(("a", 36.0),))),
    "a rendition of longer segments comes later than the others": of(plan=replace(LONG, later=(("a", 76.3),))),
    "a rendition comes later than the others, and the controllers are killed": of(*killed_within(65.0), plan=replace(CALM, later=(("a", 50.0),))),
    **{f"the feed is killed after {count} actions of a step{where}": of(Fault(at, "feed ended", ALL, 0.5, count), Fault(at + 8, "feed ended", ALL, 2.0, count))
       for count in range(7) for at, where in ((28.3, " where a break begins"), (48.9, ""))},
}
