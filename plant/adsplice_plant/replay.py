"""What a channel that is made anew is told of breaks, so that it shows what viewers have of them: as they ran, and not as they are known now."""
from __future__ import annotations

from typing import NamedTuple

from adsplice_rules import breaks as rules

from . import packaged
from .breaks import TOLERANCE
from .date_ranges import DateRange, read_range
from .packaged import PackagedSegment
from .playlist import instant_text, seconds_text
from .signals import duration_of, pieces_of
from .state import Standing
from .turn import history_of

BY_POD = "its pod"  # says where a break ends that says nothing of it (ends_of)
ENDED = ("END-DATE", "DURATION", "SCTE35-IN")  # attributes that say where a break ended (RFC 8216, 4.3.2.7)
ENDS = (*ENDED, "PLANNED-DURATION")  # and where it is to end


class Run(NamedTuple):
    """A break that viewers had filled: from the segment at the place `first` in the history, which begins at the instant `start`, to before the one
    at the place `last`; none if it isn't over. `end`: the instant at which that begins."""

    start: int
    first: int
    last: int | None = None
    end: int = 0

def run_of(stands: Standing, history: list[PackagedSegment], line: str) -> Run | None:
    """How the break of the EXT-X-DATERANGE `line` ran in the `history`; none if it wasn't filled there."""
    start = start_of(stands, line)
    if start is None:
        return None
    starts = [it for other, _ in stands.viewed.ranges.values() if (it := start_of(stands, other)) is not None]
    places = [place for place, it in enumerate(history) if it.begins is not None and (it.number in stands.viewed.begins or is_near(it.begins, starts))]
    newest = stands.viewed.ranges.get(packaged.id_in(line), (line, history[-1].number if history else 0))[1]  # (it didn't begin after the lists that had it)
    first = next((n for n in range(len(places) - 1, -1, -1) if history[places[n]].number <= newest
                  and abs((history[places[n]].begins or 0) - start) <= TOLERANCE), None)
    if first is None:
        return None
    if first + 1 == len(places):
        return Run(start, places[first])
    return Run(start, places[first], places[first + 1], history[places[first + 1]].begins or 0)


def start_of(stands: Standing, line: str) -> int | None:
    """Where the break of the EXT-X-DATERANGE `line` begins, if viewers had it filled."""
    found = read_range(line)
    return found.start() if found.id in stands.pods.entered else None


def is_near(instant: int, starts: list[int]) -> bool:
    """Whether one of the `starts` is at the `instant`."""
    return any(abs(it - instant) <= TOLERANCE for it in starts)


def as_it_ran(stands: Standing, line: str) -> str:
    """The EXT-X-DATERANGE `line` of a break that is over, with the end that it had for viewers: what says where it ends may have come later than
    the segments after it, and of a break without an end its pod said it."""
    run, found = run_of(stands, history_of(stands), line), read_range(line)
    if run is None or run.last is None:
        return line
    length = length_of(found)
    if length is not None and abs(run.start + length - run.end) <= TOLERANCE:
        return line
    return f"{without(line, ENDS)},DURATION={seconds_text(run.end - run.start)}"


def as_elsewhere(stands: Standing, others: list[Standing], line: str, segments: list[PackagedSegment]) -> str:
    """The EXT-X-DATERANGE `line` of a break, with the end that it had in one of the `others`, if that has come farther than the rendition that
    `stands` so: what says where it ends may have come after it had ended by its pod, or after segments that it ended before, and here both come at once.
    It ends with the one of the rendition's own `segments` that is nearest."""
    name, found = packaged.id_in(line), read_range(line)
    for other in others:
        said = other.viewed.ranges.get(name)
        if said is None or name not in other.pods.entered or not is_behind(stands, other):
            continue
        run = run_of(other, history_of(other), said[0])
        if run is None or run.last is not None and run.end <= end_of(stands):
            continue
        length, half, longest = length_of(found), stands.repairer.last[-1].duration // 2, other.repairer.last[-1].duration
        if run.last is None:
            if (ran := as_it_runs(other, line, [])) != line:
                return ran
            lasts = end_of(other) - run.start
            least = lasting(run.start, end_of(other), found.start(), segments) if 3 * half > longest else lasts - longest  # (longer segments say less of the end)
            is_other = length is not None and length < least - TOLERANCE
        else:
            lasts = lasting_elsewhere(other, run, said[0], found.start(), segments)
            is_other = length is None or abs(length - lasts) > max(half, longest // 2)
        if is_other:
            return f"{without(line, ENDS)},DURATION={seconds_text(lasts)}"
        if run.last is not None:
            break
    return line


def lasting_elsewhere(other: Standing, run: Run, line: str, start: int | None, segments: list[PackagedSegment]) -> int:
    """How long a break lasts that began at the instant `start` here, and has ended in the `other` rendition, where its EXT-X-DATERANGE is the `line`, after
    this `run`: up to the one of the `segments` that has the media number of the one after the run, if that begins within half of itself of the run's end; else by instants. By its pod it ends
    within a segment: then it has those that begin before that."""
    after, end = history_of(other)[run.last or 0], ended_by(other, run, line)
    same = next((it for it in segments if it.number == after.number and it.begins is not None and 2 * abs(it.begins - run.end) <= it.duration), None)
    if same is not None and same.begins is not None and start is not None and start < same.begins:
        return same.begins - start
    return lasting(run.start, end, start, segments) if end >= run.end - TOLERANCE else end - run.start


def ended_by(stands: Standing, run: Run, line: str) -> int:
    """The instant at which the `run` of a break ended, of which the list that stands so had the EXT-X-DATERANGE `line`: what that says, if that is within the
    run's last segment, or else where the segment after it begins."""
    said, newest = length_of(read_range(line)), history_of(stands)[(run.last or 0) - 1]
    is_said = said is not None and (newest.begins or 0) + TOLERANCE < run.start + said <= run.end + TOLERANCE
    return run.start + said if said is not None and is_said else run.end


def lasting(began: int, end: int, start: int | None, segments: list[PackagedSegment]) -> int:
    """How long a break lasts that began at the instant `start` here, and in another rendition from `began` to `end`: up to the nearest of the `segments` after
    its first one."""
    near = min((it for it in segments if it.begins is not None and it.begins > (start or 0) + TOLERANCE), key=lambda it: abs((it.begins or 0) - end), default=None)
    if near is None or near.begins is None or start is None or 2 * abs(near.begins - end) > near.duration:
        return end - began
    return near.begins - start


def as_it_runs(stands: Standing, line: str, segments: list[PackagedSegment]) -> str:
    """The EXT-X-DATERANGE `line` of a break that is open, and had no end when it began. It ends with its pod then, unless it is ended before: what
    says a later end may come after lists that nobody read. Once adsplice was told so, an END-DATE alone says an earlier end. The new list has the `segments`."""
    reckoned, found = stands.viewed.reckoned, read_range(line)
    if reckoned is None or reckoned.run is None or reckoned.run.id != found.id:
        return line
    known = next((it for it in reckoned.breaks if it.id == found.id), None)
    length, total = length_of(found), reckoned.run.shape.total()
    by_pod, given = f"DURATION={seconds_text(total)}", stands.viewed.ranges.get(found.id, ("", 0))[0]
    is_by_pod, is_told = known is not None and [name for name, _ in rules.ends_of(known, total)] == [BY_POD], given.endswith(f",{by_pod}")
    if length is None or not (is_by_pod or is_told):
        return line
    if length > total + TOLERANCE:
        return f"{without(line, ENDS)},DURATION={seconds_text(lasting_by_pod(stands, found.start(), total, segments))}"
    is_earlier = is_told and "END-DATE" not in found.said and length < total - TOLERANCE
    return f'{without(line, ENDS)},END-DATE="{instant_text((found.start() or 0) + length)}"' if is_earlier else line


def lasting_by_pod(stands: Standing, start: int | None, total: int, segments: list[PackagedSegment]) -> int:
    """How long a break lasts that began at `start` and whose pod lasts `total` nanoseconds. If that is over with the lists that stand so, the next one of the
    `segments` is after it, also if that is another rendition's and begins somewhat earlier."""
    last = stands.repairer.last[-1]
    first = next((it.begins for it in segments if it.number > last.number), None)
    if start is None or first is None or end_of(stands) < start + total - TOLERANCE:
        return total
    return first - start if start < first < start + total - TOLERANCE else total


def length_of(found: DateRange) -> int | None:
    """How long the break of the date range lasts, or is to last; none if it doesn't say."""
    return found.length(found.start()) or duration_of(found.said.get("PLANNED-DURATION", ""))


def is_behind(stands: Standing, other: Standing) -> bool:
    """Whether the lists that stand so end at least half a segment before those of the `other` rendition."""
    return bool(stands.repairer.last) and bool(other.repairer.last) and end_of(stands) + stands.repairer.last[-1].duration // 2 <= end_of(other)


def end_of(stands: Standing) -> int:
    """The instant at which the lists end that stand so."""
    last = stands.repairer.last[-1]
    return (last.begins or 0) + last.duration


def without(line: str, names: tuple[str, ...]) -> str:
    """The EXT-X-DATERANGE `line` without the attributes of the `names`."""
    return packaged.DATE_RANGE + ",".join(it for it in pieces_of(line.partition(":")[2]) if it.partition("=")[0] not in names)


def is_past(stands: Standing, line: str, place: int) -> bool:
    """Whether the break of the EXT-X-DATERANGE `line`, which the newest list hasn't, was over for viewers before the segment ahead of the `place` in the
    history. (If it ended with the one at the place, adsplice may not know that yet.)"""
    run = run_of(stands, history_of(stands), line)
    return run is not None and run.last is not None and run.last < place


def as_it_began(line: str) -> str:
    """The EXT-X-DATERANGE `line` of a break that hasn't ended."""
    return without(line, ENDED)
