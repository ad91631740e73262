"""The stitched list and its pace: the origin's segments, with each run of one break replaced by its pod."""
from __future__ import annotations

from dataclasses import dataclass, replace

from .breaks import Mark, Shown
from .decisions import Ad, PodSegment
from .values import Segment


@dataclass(frozen=True)
class Piece:
    """A segment of the stitched list before it is numbered: one of the origin, or one of the pod of a mark."""

    segment: Segment
    instant: int | None = None
    mark: Mark | None = None
    first_of_ad: bool = False


def runs_of(history: list[Shown]) -> list[list[Shown]]:
    """The history in runs: segments of one break that follow one another, and each unmarked one by itself."""
    runs: list[list[Shown]] = []
    for one in history:
        before = runs[-1][-1].mark if runs else None
        if one.mark and before and one.mark.id == before.id:
            runs[-1].append(one)
        else:
            runs.append([one])
    return runs


def ad_segment(ad: Ad, one: PodSegment) -> Segment:
    """A pod's segment: it has its ad's initialisation section and keys, no title and no time, and no number of the origin."""
    init_section = replace(ad.init_section, keys=ad.keys) if ad.init_section else None
    return Segment(0, 0, 0, one.uri, one.range, ad.keys, init_section, one.nanos, "", None)


def pod_pieces(mark: Mark) -> list[Piece]:
    """The segments of a mark's pod, ad by ad."""
    return [Piece(ad_segment(ad, one), None, mark, place == 0) for ad in mark.pod.ads for place, one in enumerate(ad.segments)]


def due(length: int, pieces: list[Piece]) -> list[Piece]:
    """The due prefix: the shortest front of a pod, of at least one segment, that lasts as long as the run so far; all of it if
    none does."""
    for count in range(1, len(pieces)):
        if sum(piece.segment.nanos for piece in pieces[:count]) >= length:
            return pieces[:count]
    return pieces


def run_pieces(run: list[Shown], is_open: bool) -> list[Piece]:
    """What stands for a run: an unmarked segment itself, the pod of a run that is over, the due prefix of an open run's pod."""
    first = run[0]
    if first.mark is None:
        return [Piece(first.segment, first.instant)]
    pieces = pod_pieces(first.mark)
    return due(sum(one.segment.nanos for one in run), pieces) if is_open else pieces


def stitched(history: list[Shown], ended: bool) -> list[Piece]:
    """The stitched list of all segments ever shown. The newest run is open until the playlist has ended."""
    runs = runs_of(history)
    whole = [piece for run in runs[:-1] for piece in run_pieces(run, False)]
    return whole + [piece for run in runs[-1:] for piece in run_pieces(run, not ended)]
