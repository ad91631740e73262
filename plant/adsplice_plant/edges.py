"""One edge for all renditions of a programme: what is given ends where all of them have come (RFC 8216, 6.2.4)."""
from __future__ import annotations

from .packaged import duration_of
from .playlist import SECOND
from .siblings import AWAY, NEAR, Reach, is_alike, pace_of, reach_of
from .state import Rendition
from .succession import name_of
from .turn import Turn

PATIENCE = 2.0  # target durations without a new segment, after which nobody waits for a rendition
MOST_APART = 4  # segments by which media numbers of lists may differ and still be of one count, if their instants don't tell
UNKNOWN = 2**63  # a media number that no list has
EXTINF = b"#EXTINF:"


def edge_of(turn: Turn, channel: str) -> Reach | None:
    """How far the list of the `channel` is given, by its own clock: up to where each other rendition has come that is waited for; none if none is. One whose
    segments are longer says nothing of the time until its next one is whole; one whose segments are shorter has come within half of one of its own."""
    its = turn.state.renditions[channel]
    mine, reaches, others = measured(its), list[Reach](), list[Reach]()
    for name, it in turn.renditions():
        if name == channel or (reach := awaited(turn, it)) is None:
            continue
        if is_alike(mine, pace := measured(it)):
            reaches.append(reach)
        elif reach.instant is not None:
            others.append(Reach(reach.instant + (pace - mine * 5 // 8 if pace > mine else (pace - mine) // 2), UNKNOWN, reach.last))
    timed = [it for it in (*reaches, *others) if it.instant is not None]
    if timed and all(it.is_near(timed[0]) for it in timed):
        return min(timed, key=lambda it: it.instant or 0)
    return min(reaches, key=lambda it: it.number) if reaches else None


def measured(it: Rendition) -> int:
    """How long the segments of the rendition are, in nanoseconds; 0 if that isn't known."""
    return pace_of(it.stands.repairer.last) or (it.reach.last if it.reach is not None else 0)


def awaited(turn: Turn, it: Rendition) -> Reach | None:
    """How far the rendition has come; none if nobody waits for it, since it has had no new segment for a while, or is about to begin again. One whose
    list a feed that has just begun hasn't read has come as far as its last one."""
    came = it.came if it.came is not None else it.stands.text
    if not came or turn.at >= patience_ends(it, turn.target()) or it.older or it.stands.repairer.held_since is not None:
        return None
    return by_last(it, it.reach if it.reach is not None else reach_of(came))


def by_last(it: Rendition, reach: Reach) -> Reach:
    """How far the newest list of the rendition goes, which goes as far as `reach` by its packager's clock, by the programme's. The packager may have set its
    clock since what was given last, if the list still has that: it went back, or on farther than the time in which no list came."""
    reach = reach if reach.instant is None else reach._replace(instant=reach.instant - it.stands.repairer.clock)
    last = it.stands.repairer.last[-1] if it.stands.repairer.last else None
    if last is None or last.begins is None or reach.instant is None or it.came is None:
        return reach
    place = max(it.came.rfind(mark + name_of(last).encode()) for mark in (b"/", b"\n"))
    if place < 0 or not 0 < (count := it.came.count(EXTINF, place)) <= NEAR:
        return reach
    end = last.begins + last.duration + count * reach.last
    by, most = reach.instant - end, max(SECOND, last.duration, reach.last)
    return reach._replace(instant=end) if by < -most or by > (it.read_at - it.given_at) * SECOND + (AWAY + count) * most else reach


def patience_ends(it: Rendition, target: float) -> float:
    """The moment from which on nobody waits for the rendition if it has no new segment until then, by the `target` duration. If all had none, as
    of an origin that didn't answer, the first one that has some again waits a target duration for the others."""
    found = it.came_at + PATIENCE * target
    return max(found, it.behind_since + target) if it.behind_since > it.came_at else found


def note_behind(turn: Turn, channel: str, reach: Reach, since: float) -> None:
    """A list of the `channel` has come as far as `reach`: the others that haven't are behind from now on, unless they are already. If no rendition has had
    a new segment `since` longer than a target duration ago, none of them was behind until now."""
    is_quiet, mine = turn.at - since > turn.target(), by_last(turn.state.renditions[channel], reach)
    for name, it in turn.renditions():
        if name != channel and it.reach is not None and (is_quiet or it.behind_since <= it.came_at) and not by_last(it, it.reach).covers(mine):
            turn.put(name, behind_since=turn.at)


def up_to(body: bytes, mine: Reach, edge: Reach) -> bytes:
    """The list `body`, which goes as far as `mine`, without the segments at its end that lie past the `edge`; its first segment stays."""
    at = len(body)
    end, number, first = mine.instant, mine.number, body.find(EXTINF)
    if not mine.is_near(edge):
        if abs(number - edge.number) > MOST_APART:
            return body
        end = None  # (they state no instants, or the one is far from the other)
    while (place := body.rfind(EXTINF, 0, at)) > first:
        duration = duration_of(body[place + len(EXTINF):body.find(b"\n", place)].decode("utf-8", "replace")) or 0
        if edge.covers(Reach(end, number, duration)) if end is None or edge.instant is None else end < edge.instant + duration // 2:
            break
        end, number, at = None if end is None else end - duration, number - 1, place
    return body if at == len(body) else body[:end_of_segment(body, body.rfind(EXTINF, 0, at))]


def end_of_segment(body: bytes, place: int) -> int:
    """Where the line of the URI ends that follows the EXTINF at the `place` in `body`."""
    while 0 < (end := body.find(b"\n", place) + 1):
        if body[place:place + 1] != b"#" and body[place:end].strip():
            return end
        place = end
    return len(body)
