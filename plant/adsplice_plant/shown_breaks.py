"""What viewers were shown in the breaks of a programme: one line for each break, with what each rendition showed by the as-run log."""
from __future__ import annotations

from collections.abc import Iterable, Mapping, Sequence
from dataclasses import dataclass, field
from pathlib import Path
from typing import Any

from .as_run import lines_of
from .playlist import SECOND, read_instant
from .reconcile import MOST, files_of
from .words import Fault, plain

NEAR = 30 * SECOND  # by which the starts of a break may differ from rendition to rendition: an ID may come again later
WHAT = {"own": "its pod", "fallback": "the fallback", "none": "nothing"}

Line = Mapping[str, Any]  # of the as-run log


@dataclass
class Break:
    """A break `id` of a `programme`, which starts at `start`: the `lines` of the log by their channels."""

    programme: str
    id: str
    start: str
    lines: dict[str, Line] = field(default_factory=dict)

    def is_near(self, start: str) -> bool:
        """Whether a line with this `start` is of this break."""
        mine, other = read_instant(self.start), read_instant(start)
        return self.start == start if mine is None or other is None else abs(mine - other) <= NEAR


def programmes_of(channels: Iterable[str]) -> dict[str, str]:
    """The programme of each of the `channels`: of renditions the name up to the last `-` if another channel has that, too; else its own name."""
    names = set(channels)
    fronts = [it.rpartition("-")[0] for it in names]
    return {it: front if (front := it.rpartition("-")[0]) and fronts.count(front) > 1 else it for it in names}


def breaks_of(lines: Iterable[Line]) -> list[Break]:
    """The breaks that the `lines` of logs tell of, in their order, each with the lines of all renditions: of several of one rendition, each of another
    machine, the one that shows most."""
    its = [it for it in lines if isinstance(it.get("id"), str) and isinstance(it.get("channel"), str)]
    programmes = programmes_of(it["channel"] for it in its)
    found: list[Break] = []
    newest: dict[tuple[str, str], list[Break]] = {}
    for it in its:
        key, start = (programmes[it["channel"]], it["id"]), str(it.get("start") or "")
        known = newest.setdefault(key, [])
        one = next((one for one in known if one.is_near(start)), None)
        if one is None:
            one = Break(*key, start)
            known.append(one)
            found.append(one)
        one.lines[it["channel"]] = max(one.lines.get(it["channel"], it), it, key=count_of)
    return found


def count_of(line: Line) -> int:
    """How many segments of its pod a `line` of the log says that were shown."""
    found = line.get("shown")
    return found if isinstance(found, int) else 0


def shown(line: Line) -> str:
    """What a `line` of the log says that a rendition showed."""
    pod = str(line.get("pod") or "none")
    if pod == "none":
        return f"nothing ({line.get('reason') or line.get('why') or 'why is unknown'})"
    is_whole = line.get("shown") == line.get("of")
    how = "whole" if is_whole else f"{line.get('shown')} of {line.get('of')} segments"
    return f"{WHAT.get(pod, pod)} {how}, {line.get('seconds')} s"


def sentence(one: Break, channels: Iterable[str]) -> tuple[str, bool]:
    """What the break `one` of the programme's `channels` was in each of them, and whether it was the same in all."""
    groups: dict[str, list[str]] = {}
    for it in sorted(channels):
        groups.setdefault(shown(one.lines[it]) if it in one.lines else "no line yet", []).append(it)
    alike = {(it.get("pod"), it.get("shown") == it.get("of")) for it in one.lines.values()}
    is_alike = len(alike) == 1 and "no line yet" not in groups
    said = "; ".join(f"{what} in {', '.join(names)}" for what, names in groups.items())
    return f"{one.programme} {one.id} at {one.start or 'an unknown time'}: {said}", is_alike


def report(logs: Sequence[Path], channels: list[str]) -> tuple[list[str], bool]:
    """A line for each break of the as-run `logs`, one of each machine, of the `channels` alone if some are named, and one with their count; and whether each
    was the same in all renditions of its programme. Raises Fault."""
    for log in logs:
        if not log.exists():
            raise Fault(f"{log}: there is no such as-run log")
    lines = [it for log in logs for file in files_of(log) for it in lines_of(file, MOST) if not channels or it.get("channel") in channels]
    programmes = programmes_of(str(it["channel"]) for it in lines if isinstance(it.get("channel"), str))
    found = [sentence(it, [name for name, programme in programmes.items() if programme == it.programme]) for it in breaks_of(lines)]
    unlike = sum(not is_alike for _, is_alike in found)
    texts = [text for text, _ in found] + [f"{len(found)} break{'' if len(found) == 1 else 's'}: {len(found) - unlike} the same in all renditions, {unlike} not"]
    return [plain(it) for it in texts], not unlike
