"""Which playlist may follow which (RFC 8216, 6.2.1 and 6.2.2, with the narrower rules of CONFORMANCE)."""
from __future__ import annotations

from .values import Fault, Playlist, Segment

MOST_STEPS = 1000  # between two windows that touch (CONFORMANCE, 6.2.1)


def kept_parts(one: Segment) -> tuple[object, ...]:
    """6.2.2: what a segment keeps while it is listed: all but its title, its stated time, and where its discontinuities are
    counted."""
    return one.number, one.discontinuity, one.uri, one.range, one.keys, one.init_section, one.nanos


def same_segment(one: Segment, other: Segment) -> bool:
    """6.2.2: a segment that is listed again is the same."""
    return kept_parts(one) == kept_parts(other)


def first_changed(old: Playlist, new: Playlist) -> int | None:
    """6.2.1: the number of the first segment that both list and that isn't what it was."""
    listed = {one.number: one for one in old.segments}
    return next((one.number for one in new.segments if not same_segment(one, listed.get(one.number, one))), None)


def discontinuity_out_of_range(old: Playlist, new: Playlist) -> bool:
    """6.2.1, CONFORMANCE: if the new window begins right after the old one, its first discontinuity number is at least the
    last one's, and at most 1,000 above it."""
    if new.segments[0].number <= old.segments[-1].number:
        return False
    return not 0 <= new.segments[0].discontinuity - old.segments[-1].discontinuity <= MOST_STEPS


def is_same_window(old: Playlist, new: Playlist) -> bool:
    """Both list segments of the same numbers."""
    return (new.segments[0].number, new.segments[-1].number) == (old.segments[0].number, old.segments[-1].number)


def succession_fault(old: Playlist, new: Playlist) -> Fault | None:
    """The first of N1 to N9 for which a playlist may not follow another, or none."""
    changed = first_changed(old, new)
    if changed is None and discontinuity_out_of_range(old, new):
        changed = new.segments[0].number
    faults = [
        ("N1", new.version != old.version),
        ("N2", new.target != old.target),
        ("N3", new.kind != old.kind),
        ("N4", new.has_init_sections() != old.has_init_sections()),
        ("N5", new.segments[0].number < old.segments[0].number),
        ("N6", new.segments[0].number > old.segments[-1].number + 1),
        ("N7", new.segments[-1].number < old.segments[-1].number),
        ("N8", changed is not None),
        ("N9", old.ended and not (new.ended and is_same_window(old, new))),
    ]
    code = next((code for code, stands in faults if stands), None)
    return None if code is None else Fault(code, f" {changed}" if code == "N8" else "")
