"""Breaks, and which of them marks a segment (RFC 8216, 4.3.2.7, and ANSI/SCTE 35)."""
from __future__ import annotations

from dataclasses import dataclass

from .decisions import Pod, Store, pod_for
from .splice import insert_said, ticks_nanos
from .values import DateRange, Playlist, Segment, first_of


@dataclass(frozen=True)
class Break:
    """A known break, with the first value of each of its attributes since it became known (CONFORMANCE, 4.3.2.7)."""

    id: str
    start: int | None
    end: int | None
    duration: int | None
    planned: int | None
    out: str | None
    back: str | None


@dataclass(frozen=True)
class Mark:
    """The break that a segment belongs to, with the pod that its run was entered with."""

    id: str
    pod: Pod


@dataclass(frozen=True)
class Shown:
    """A segment of the origin, as the refresh that first showed it has it, with its instant and its mark."""

    segment: Segment
    instant: int | None
    mark: Mark | None


@dataclass(frozen=True)
class Accepted:
    """An accepted refresh, and the ID of the break that marked the newest segment before it."""

    playlist: Playlist
    carried: str | None


# ---- what is known

def stands(refresh: Accepted, name: str) -> bool:
    """The ID is that of a date range of this refresh, or of the mark of the newest segment before it."""
    return name == refresh.carried or any(one.id == name for one in refresh.playlist.ranges)


def known_since(refreshes: list[Accepted], name: str) -> int:
    """The first refresh since which the ID stands in each one up to the newest."""
    since = len(refreshes)
    while since > 0 and stands(refreshes[since - 1], name):
        since -= 1
    return since


def break_of(name: str, tags: list[DateRange]) -> Break:
    """What these tags say of a break: the first value of each attribute, also one that is of no use."""
    return Break(name, first_of(tag.start for tag in tags), first_of(tag.end for tag in tags),
                 first_of(tag.duration for tag in tags), first_of(tag.planned for tag in tags),
                 first_of(tag.out for tag in tags), first_of(tag.back for tag in tags))


def known(refreshes: list[Accepted]) -> list[Break]:
    """The breaks that are known at the newest refresh: those whose IDs stand there, in the order in which they became known."""
    found: list[Break] = []
    for since, refresh in enumerate(refreshes):
        for name in dict.fromkeys(tag.id for tag in refresh.playlist.ranges):
            if known_since(refreshes, name) == since:
                tags = [tag for later in refreshes[since:] for tag in later.playlist.ranges if tag.id == name]
                found.append(break_of(name, tags))
    return found


# ---- what a break says

def is_leaving(one: Break) -> bool:
    """SCTE 35, 9.7.3: its SCTE35-OUT holds a splice_insert, not cancelled, that leaves the network."""
    insert = insert_said(one.out)
    return insert is not None and insert.out_of_network is True


def is_signalled(one: Break) -> bool:
    """It leaves the network, and has a START-DATE."""
    return one.start is not None and is_leaving(one)


def is_returning(one: Break) -> bool:
    """SCTE 35, 9.7.3: its SCTE35-IN holds a splice_insert, not cancelled, that returns to the network."""
    insert = insert_said(one.back)
    return insert is not None and insert.out_of_network is False


def signal_nanos(one: Break) -> int | None:
    """SCTE 35, 9.8.2: how long the break lasts by the break_duration of its SCTE35-OUT."""
    insert = insert_said(one.out)
    return None if insert is None or insert.ticks is None else ticks_nanos(insert.ticks)


CLOSED = "closed"  # an end without an instant: no segment more is inside


def ends_of(one: Break, total: int) -> list[tuple[str, int | str]]:
    """What says where a break ends, the first one of which counts: END-DATE; START-DATE with DURATION; a valid SCTE35-IN (closed);
    START-DATE with PLANNED-DURATION, with the section's break_duration, with the `total` of its pod."""
    def after(nanos: int | None) -> int | None:
        return None if one.start is None or nanos is None else one.start + nanos
    closed = CLOSED if is_returning(one) else None
    by = ("END-DATE", "DURATION", "SCTE35-IN", "PLANNED-DURATION", "break_duration", "its pod")
    ends = [one.end, after(one.duration), closed, after(one.planned), after(signal_nanos(one)), after(total)]
    return [(name, end) for name, end in zip(by, ends) if end is not None]


def end_of(one: Break, total: int) -> int | str | None:
    """Where a break ends: by the first that is known."""
    return next((end for _, end in ends_of(one, total)), None)


def is_inside(one: Break | None, pod: Pod, instant: int | None, tolerance: int) -> bool:
    """A segment stays in the break of the one before it if it begins more than the tolerance before the break's end."""
    if one is None or instant is None:
        return False
    end = end_of(one, pod.total())
    return isinstance(end, int) and instant + tolerance < end


# ---- marks

@dataclass(frozen=True)
class Moment:
    """What decides at a refresh: the known breaks, the store, the target duration, whether segments have initialisation sections."""

    tolerance: int
    target: int
    with_init_sections: bool
    breaks: list[Break]
    store: Store


def obstacle(moment: Moment, one: Break, last: str | None, instant: int | None) -> str | None:
    """What keeps a segment that begins at this instant from entering a break; None if it may enter. The segment has to begin
    within the tolerance of START-DATE, and before the end if that is an instant; the break has to be signalled, decided and
    fitting, and not the one entered last."""
    pod = pod_for(moment.store, one.id)
    if instant is None:
        return "no instant"
    if one.start is None:
        return "no start"
    if abs(instant - one.start) > moment.tolerance:
        return "not near"
    if not is_leaving(one):
        return "not signalled"
    if pod is None:
        return "not decided"
    if not pod.fits(moment.target, moment.with_init_sections):
        return "does not fit"
    end = end_of(one, pod.total())
    if isinstance(end, int) and instant + moment.tolerance >= end:
        return "past its end"
    return "entered last" if one.id == last else None


def entered(moment: Moment, last: str | None, instant: int | None) -> Mark | None:
    """The first known break that nothing keeps a segment from entering."""
    for one in moment.breaks:
        pod = pod_for(moment.store, one.id)
        if pod is not None and obstacle(moment, one, last, instant) is None:
            return Mark(one.id, pod)
    return None


def last_entered(history: list[Shown]) -> str | None:
    """The ID of the newest mark of the history."""
    return next((one.mark.id for one in reversed(history) if one.mark), None)


def next_mark(moment: Moment, history: list[Shown], instant: int | None) -> Mark | None:
    """The mark of the segment after this history: that of the segment before, if it is inside that break; else the break that
    it enters."""
    before = history[-1].mark if history else None
    if before is not None:
        one = next((known for known in moment.breaks if known.id == before.id), None)
        if is_inside(one, before.pod, instant, moment.tolerance):
            return before
    return entered(moment, last_entered(history), instant)


def why(moment: Moment, name: str, in_use: list[str]) -> str:
    """Why a known break is filled or not: the first word that holds (docs/operating/faults.md)."""
    one = next((known for known in moment.breaks if known.id == name), None)
    if name in in_use:
        return "Filled"
    if one is None:
        return "NotKnown"
    if one.start is None:
        return "NoStart"
    if not is_leaving(one):
        return "NotSignalled"
    pod = pod_for(moment.store, name)
    if pod is None:
        return "NotDecided"
    return "Waiting" if pod.fits(moment.target, moment.with_init_sections) else "DoesNotFit"
