"""The EXT-X-DATERANGE lines of lists (RFC 8216, 4.3.2.7): their IDs, and where breaks begin."""
from __future__ import annotations

from collections.abc import Collection
from functools import lru_cache

from . import packaged
from .date_ranges import read_range
from .packaged import DATE_RANGE

SIGNAL, MARK = "SCTE35-OUT", f"\n{DATE_RANGE}".encode()
REMEMBERED = 4096  # lines that were read: those of a break stand in each list


def ids_in(lines: Collection[str]) -> set[str]:
    """The IDs of the EXT-X-DATERANGE `lines`."""
    return {name for line in lines if (name := packaged.id_in(line))}


def ranges_in(text: bytes) -> list[str]:
    """The EXT-X-DATERANGE lines of the list `text`."""
    found, begin = [], text.find(MARK)
    while begin >= 0:
        end = text.find(b"\n", begin + 1)
        found.append(text[begin + 1:end if end >= 0 else len(text)].decode("utf-8", "replace").rstrip("\r"))
        begin = text.find(MARK, end) if end >= 0 else -1
    return found


@lru_cache(REMEMBERED)
def start_in(line: str) -> tuple[str, int] | None:
    """The ID and the START-DATE of the EXT-X-DATERANGE `line`, if it begins a break."""
    it = read_range(line)
    start = it.start() if SIGNAL in it.said and it.id else None
    return None if start is None else (it.id, start)


def starts_in(lines: Collection[str]) -> dict[str, int]:
    """The starts of the signalled breaks of the EXT-X-DATERANGE `lines`, by their IDs."""
    return dict(found for line in lines if (found := start_in(line)) is not None)


def moved_in(lines: Collection[str], new: Collection[str], tolerance: int) -> set[str]:
    """The IDs of the breaks of the EXT-X-DATERANGE `lines` of which the `new` lines of the next list state a START-DATE that is another by more than
    `tolerance`. adsplice keeps the first one for as long as a list has the ID (RFC 8216, 4.3.2.7)."""
    now = starts_in(new)
    return {it[0] for line in lines if (it := start_in(line)) is not None and it[0] in now and abs(now[it[0]] - it[1]) > tolerance}


def without(text: bytes, names: Collection[str]) -> bytes:
    """The list `text` without the date ranges of these `names`."""
    front = DATE_RANGE.encode()
    return b"\n".join(line for line in text.split(b"\n") if not line.startswith(front) or packaged.id_in(line.decode("utf-8", "replace").rstrip("\r")) not in names)
