"""Reads a channel's playlist from its origin: a URL, by conditional requests, or a file."""
import os
import time
from collections.abc import Callable, Iterator
from dataclasses import dataclass
from pathlib import Path
from typing import Protocol

from . import playlist
from .bounded_files import Unread, bytes_of, regular, regular_below
from .events import Stamp
from .location import LocalFile, Location, Url
from .settings import LINE
from .web import MAX_BYTES, Client

READS = 4  # of a list that is cut off within a line, before it is left for the next turn
BETWEEN = 0.15  # seconds between these
LINES = 100_000  # of a list: adsplice takes 10,000 segments
NAME = 255  # bytes of a break's ID and of a key's format
BEGINS, GOES_ON = (b"SCTE35-OUT=", b"SCTE35-CMD=", b"#EXT-X-CUE-OUT"), b"#EXT-X-CUE-OUT-CONT"  # what begins breaks, and a tag within one
WRITTEN = 4 * MAX_BYTES  # bytes that may be written of a list: of a list of 10,000 segments that is as much as a base or a key of 1,200 bytes
NEWLINE = b"\n"
CUT_OFF = "the playlist is cut off within its last line"


@dataclass(frozen=True)
class Read:
    """What a look at the origin found: a whole list in `body`; none if it is as it was, or if `why` says what is wrong.
    `moved` is the URL that answered, if the origin's own led there."""

    body: bytes | None = None
    status: int = 0
    why: str = ""
    moved: str = ""


class FileOrigin:
    """A list that a packager writes to the file at `place`. It is a regular file: nobody waits for a pipe."""

    def __init__(self, place: LocalFile) -> None:
        self.place = place
        self.stamp: Stamp | None = None

    def read(self) -> Read:
        """Its list if the file changed since it was read last."""
        path, below = self.place.path, self.place.below
        try:
            with regular(path) if below is None else regular_below(below, path.relative_to(below)) as (it, stamp):
                if stamp == self.stamp:
                    return Read()
                body = bytes_of(it, stamp, MAX_BYTES)
        except (OSError, Unread) as fault:
            self.stamp = None
            return Read(why=f"{path}: {fault.strerror if isinstance(fault, OSError) else f'it {fault}'}")
        self.stamp = stamp
        return Read(body)

    def forget(self) -> None:
        """The list is read again, though it hasn't changed."""
        self.stamp = None


class WebOrigin:
    """A list at `url`, which `client` asks for with the validators of the last answer (RFC 9110, 13.1)."""

    def __init__(self, url: str, client: Client) -> None:
        self.url, self.client = url, client
        self.fields: dict[str, str] = {}

    def read(self) -> Read:
        """Its list, unless the origin answers that it is as it was (304)."""
        answer = self.client.ask("GET", self.url, fields=self.fields)
        if answer.status == 304:
            return Read(status=304)
        self.fields = {}
        if answer.status != 200:
            return Read(status=answer.status, why=answer.why or f"the origin answers {answer.status}")
        for asked, told in (("If-None-Match", "etag"), ("If-Modified-Since", "last-modified")):
            if told in answer.fields:
                self.fields[asked] = answer.fields[told]
        return Read(answer.body, 200, moved=answer.url if answer.url.rstrip("/") != self.url else "")

    def forget(self) -> None:
        """The list is asked for again without a condition."""
        self.fields = {}


class Origin(Protocol):
    """Where a list is read."""

    def read(self) -> Read:
        """Its list, if that changed."""

    def forget(self) -> None:
        """The list is read again, though it hasn't changed."""


def origin_of(place: Location, client: Client) -> Origin:
    """The origin at `place`, a URL that `client` asks for or a file."""
    if isinstance(place, Url):
        return WebOrigin(place.text, client)
    return FileOrigin(place)


def over_bound(body: bytes, line: int, base: int = 0, ads: int = 0) -> str:
    """What of the list `body` is over a bound that no packager meets, and costs adsplice its time or its memory: a line of more than `line`
    bytes, an ID or a key's format of more than NAME, or so many references under a base of so many bytes (`base`), or under a key, or so many breaks
    for a fallback of so many bytes (`ads`), that what is written would be much longer. Empty if nothing is. It looks at each byte a few times."""
    if body.count(NEWLINE) > LINES:
        return f"it has more than {LINES} lines"
    begin = 0
    while len(body) - begin > line:
        end = body.rfind(b"\n", begin, begin + line + 1)
        if end < 0:
            return f"line {body.count(NEWLINE, 0, begin) + 1} has more than {line} bytes (`line`)"
        begin = end + 1
    return long_name(body) or written_long(body, base, ads)


def tags_of(body: bytes, tag: bytes) -> Iterator[tuple[int, int]]:
    """Where each `tag` in the list `body` begins, and where its line ends."""
    begin = body.find(tag)
    while begin >= 0:
        end = body.find(NEWLINE, begin)
        end = len(body) if end < 0 else end
        yield begin, end
        begin = body.find(tag, end)


def long_name(body: bytes) -> str:
    """Which ID or key's format in the list `body` has more than NAME bytes; empty if none has."""
    for tag, names in ((b"#EXT-X-DATERANGE:", (b':ID="', b',ID="')), (b"#EXT-X-KEY:", (b':KEYFORMAT="', b',KEYFORMAT="'))):
        for begin, end in tags_of(body, tag):
            for name in names:
                at = body.find(name, begin, end)
                close = body.find(b'"', at + len(name), end) if at >= 0 else -1
                if at >= 0 and (close if close >= 0 else end) - at - len(name) > NAME:
                    return f"line {body.count(NEWLINE, 0, begin) + 1}: {name[1:-2].decode()} has more than {NAME} bytes"
    return ""


def written_long(body: bytes, base: int, ads: int) -> str:
    """Why what is written of the list `body` under a base of so many bytes (`base`), with a fallback of so many (`ads`), would have more than WRITTEN
    bytes; empty if it hasn't. A key without an IV, or a section in force, may stand before each segment (RFC 8216, 5.2 and 4.3.2.5), the base before
    each reference, and the fallback in each break."""
    longest = max((end - begin for tag in (b"#EXT-X-KEY:", b"#EXT-X-MAP:") for begin, end in tags_of(body, tag)), default=0)
    breaks = sum(body.count(it) for it in BEGINS) - body.count(GOES_ON)
    if len(body) + (body.count(NEWLINE) + 1) * (base + longest) + breaks * ads <= WRITTEN:
        return ""  # (a list has no more references than lines)
    references = sum(not it.startswith(b"#") and not it.isspace() for it in body.split(NEWLINE) if it)
    if len(body) + references * (base + longest) + breaks * ads <= WRITTEN:
        return ""
    more = f", and {breaks} breaks for a fallback of {ads} bytes" if breaks * ads else ""
    return f"what is written of it may have more than {WRITTEN} bytes: {references} references under a base of {base} bytes, with a key or a map of {longest}{more}"


def ads_of(path: Path | None) -> int:
    """How many bytes the fallback's file `path` has; 0 if there is none."""
    try:
        return os.stat(path).st_size if path is not None else 0
    except (OSError, ValueError):
        return 0


def read_whole(origin: Origin, takes_unended: bool, line: int = LINE, base: str = "", ads: int = 0, sleep: Callable[[float], object] = time.sleep) -> Read:
    """A whole list of `origin`. One that is cut off within its last line is read again, by a packager who writes it in
    place; if it stays so, it isn't taken, unless `takes_unended` says that this packager never ends its last line. One that is
    over a bound, such as a `line` of so many bytes, or what is written under its `base` with a fallback of so many bytes (`ads`), isn't taken either. `sleep`: waits between two reads."""
    for left in range(READS, 0, -1):
        found = origin.read()
        if found.body is None:
            return found
        if why := over_bound(found.body, line, len(base.encode()), ads):
            return Read(status=found.status, why=why)
        if takes_unended or playlist.is_whole(found.body):
            return found
        origin.forget()
        if left > 1:
            sleep(BETWEEN)
    return Read(status=found.status, why=CUT_OFF)
