"""A controller that goes on from list to list, fast: what adsplice_rules say of a whole history, of what is new in it alone.

Breaks, decisions, numbers and texts are the rules' own. `test_controller_answers_as_the_rules` compares both on the same requests.
"""
from __future__ import annotations

from collections import deque
from collections.abc import Iterable, Iterator
from dataclasses import dataclass, field
from functools import lru_cache
from typing import NamedTuple

from adsplice_rules import breaks as rules
from adsplice_rules import edge
from adsplice_rules.breaks import Break, Mark, Moment
from adsplice_rules.decisions import Pod, Store, decided, decisions_of, kept_in_use
from adsplice_rules.edge import Edge, Reply, Request, refused
from adsplice_rules.keys import MOST_FORMATS, effective_keys, key_of, keys_after, lacks_iv, map_of
from adsplice_rules.numbers import Item
from adsplice_rules.reading import date_range_of, read
from adsplice_rules.stitched import Piece, ad_segment
from adsplice_rules.succession import succession_fault
from adsplice_rules.text import text_of
from adsplice_rules.times import begins_at, duration_of, instant_of
from adsplice_rules.uris import Url, resolved
from adsplice_rules.values import DateRange, Fault, InitSection, Keys, Playlist, Segment

REMEMBERED = 4096

instants, durations = lru_cache(REMEMBERED)(instant_of), lru_cache(REMEMBERED)(duration_of)
references, ranges, decisions = lru_cache(REMEMBERED)(resolved), lru_cache(REMEMBERED)(date_range_of), lru_cache(REMEMBERED)(decisions_of)
keys_said, maps_said = lru_cache(REMEMBERED)(key_of), lru_cache(REMEMBERED)(map_of)


class Written(NamedTuple):
    """A written segment, as viewers have it: its media number, its URI, its discontinuity number, its keys and its initialisation section."""

    number: int
    uri: str
    discontinuity: int
    keys: Keys = ()
    section: InitSection | None = None


def written(it: Item) -> Written:
    """The item `it` of a stitched list as viewers have it."""
    one = it.piece.segment
    return Written(it.media, one.uri, it.discontinuity, one.keys, one.init_section)


# ---- lists

class Unusual(Exception):
    """A line that is left to the rules' reader."""


HEAD = ("EXT-X-VERSION", "EXT-X-TARGETDURATION", "EXT-X-MEDIA-SEQUENCE", "EXT-X-DISCONTINUITY-SEQUENCE")
LEFT = ("#EXT-X-BYTERANGE", "#EXT-X-ENDLIST", "#EXT-X-PLAYLIST-TYPE", "#EXT-X-I-FRAMES-ONLY", "#EXT-X-MEDIA:", "#EXT-X-S", "#EXT-X-I-FRAME-")


def number_of(text: str) -> int:
    """A short decimal; raises Unusual if it is none."""
    if not (text.isascii() and text.isdigit() and len(text) < 16):
        raise Unusual
    return int(text)


class Reader:
    """The reader of a list of the usual tags under a `base`."""

    def __init__(self, base: Url) -> None:
        self.base, self.head, self.found = base, dict[str, int](), list[Segment]()
        self.ranges: list[DateRange] = []
        self.is_independent = False
        self.steps, self.time, self.duration = 0, None, None
        self.title, self.discontinuity = "", 0
        self.keys: Keys = ()
        self.section: InitSection | None = None

    def uri(self, line: str) -> None:
        """A segment's URI."""
        if self.duration is None:
            raise Unusual
        if not self.found:
            self.number, self.discontinuity = self.head.get("EXT-X-MEDIA-SEQUENCE", 0), self.head.get("EXT-X-DISCONTINUITY-SEQUENCE", 0)
        self.discontinuity += self.steps
        self.found.append(Segment(self.number + len(self.found), self.discontinuity, self.steps, references(self.base, line), None,
                                  effective_keys(self.keys, self.number + len(self.found)) if self.keys else (), self.section,
                                  self.duration, self.title, self.time))
        self.steps, self.time, self.duration, self.title = 0, None, None, ""

    def tag(self, line: str) -> None:
        """A tag; raises Unusual for one that is left to the rules."""
        name, colon, rest = line[1:].partition(":")
        if name == "EXTINF":
            length, _, self.title = rest.partition(",")
            self.duration = durations(length)
            if self.duration is None:
                raise Unusual
        elif name == "EXT-X-PROGRAM-DATE-TIME":
            self.time = instants(rest)
            if self.time is None:
                raise Unusual
        elif name == "EXT-X-DATERANGE":
            self.ranges.append(ranges(rest))
        elif line == "#EXT-X-DISCONTINUITY":
            self.steps += 1
        elif name == "EXT-X-KEY":
            self.keys = keys_after([*self.keys, keys_said(self.base, rest)])
            if len(self.keys) > MOST_FORMATS:
                raise Unusual
        elif name == "EXT-X-MAP":
            if lacks_iv(self.keys):
                raise Unusual
            self.section = InitSection(*maps_said(self.base, rest), self.keys)
        elif line == "#EXT-X-INDEPENDENT-SEGMENTS":
            self.is_independent = True
        elif name in HEAD:
            if name in self.head or self.found or self.steps:
                raise Unusual
            self.head[name] = number_of(rest)
        elif line.startswith(LEFT):
            raise Unusual

    def playlist(self) -> Playlist:
        """All that was read; raises Unusual if it isn't a list."""
        version = self.head.get("EXT-X-VERSION", 1)
        if not self.found or "EXT-X-TARGETDURATION" not in self.head or not 1 <= version <= 7:
            raise Unusual
        if len({it.init_section is None for it in self.found}) > 1:
            raise Unusual
        return Playlist(version, self.head["EXT-X-TARGETDURATION"], None, self.is_independent, False, tuple(self.ranges), tuple(self.found))


def usual(base: Url, body: bytes) -> Playlist:
    """What the list `body` says under a `base`, if it has no more than the usual tags; raises Unusual or Fault if not."""
    text = body.decode("ascii")
    if not text.replace("\n", "").isprintable() or not text.startswith("#EXTM3U\n"):
        raise Unusual
    it = Reader(base)
    for line in text.split("\n")[1:]:
        if line.startswith("#EXT"):
            it.tag(line)
        elif line and line[0] != "#":
            if line[0] == " ":
                raise Unusual
            it.uri(line)
    return it.playlist()


def read_fast(base: Url, body: bytes) -> Playlist:
    """What the list `body` says under a `base`, by the rules; raises their Fault."""
    try:
        return usual(base, body)
    except (Unusual, Fault, UnicodeDecodeError):
        return read(base, body)


# ---- a channel

@lru_cache(REMEMBERED)
def pieces_of(pod: Pod) -> tuple[Piece, ...]:
    """The segments of a pod, ad by ad; their mark is given to them where they stand."""
    return tuple(Piece(ad_segment(ad, one), None, None, place == 0) for ad in pod.ads for place, one in enumerate(ad.segments))


def merged(old: Break, new: Break) -> Break:
    """The first value of each attribute of two tags of a break."""
    return Break(old.id, *(getattr(old, it) if getattr(old, it) is not None else getattr(new, it) for it in ("start", "end", "duration", "planned", "out", "back")))


def same_said(old: Break, new: DateRange) -> bool:
    """Whether a tag says nothing of the break that isn't known."""
    return not any(getattr(old, it) is None and getattr(new, it) is not None for it in ("start", "end", "duration", "planned", "out", "back"))


@dataclass
class Run:
    """The open run: its `mark`, how long it `lasted`, how many of its pod's pieces are written."""

    mark: Mark
    lasted: int = 0
    written: int = 0


@dataclass
class Channel:
    """A channel's newest state: the `last` playlist, the `known` breaks, the written `items` from the place `dropped` on, the places of
    listed segments by their numbers (`places`), the `start` of the window, the open `run`, and the newest segment with its instant."""

    base: Url
    tolerance: int
    last: Playlist | None = None
    known: dict[str, Break] = field(default_factory=dict)
    store: Store = Store()
    items: deque[Item] = field(default_factory=deque)
    dropped: int = 0
    start: int = 0
    places: dict[int, int] = field(default_factory=dict)
    run: Run | None = None
    first: Segment | None = None  # the very first segment
    newest: Segment | None = None
    ended: int | None = None  # the instant at which the newest segment ends
    entered: str | None = None
    body: bytes = b""  # of the last list
    count: int = 0  # lists that were accepted

    def refresh(self, body: bytes) -> None:
        """Takes the list `body`; raises Fault, and is as it was."""
        playlist = self.last if self.last is not None and body == self.body else read_fast(self.base, body)
        if self.last is not None and (fault := succession_fault(self.last, playlist)):
            raise fault
        self.learn(playlist)
        before, is_first = self.dropped + len(self.items), self.last is None
        self.show(playlist)
        first = playlist.segments[0].number
        if is_first:
            self.start = self.places[first]
        elif self.last is not None and first != self.last.segments[0].number:
            self.start = min(self.places.get(first, self.dropped + len(self.items)), before)
        self.last, self.body, self.count = playlist, body, self.count + 1
        self.forget(first)
        self.store = kept_in_use(self.store, self.in_use()) if self.store.entries or self.store.fallback else self.store

    def learn(self, playlist: Playlist) -> None:
        """Breaks whose IDs stand no more are forgotten; new ones, and what is new of others, become known."""
        carried = self.run.mark.id if self.run is not None else None
        tags: dict[str, list[DateRange]] = {}
        for it in playlist.ranges:
            tags.setdefault(it.id, []).append(it)
        known = {name: one for name, one in self.known.items() if name in tags or name == carried}
        for name, found in tags.items():
            for it in found:
                if name not in known:
                    known[name] = Break(it.id, it.start, it.end, it.duration, it.planned, it.out, it.back)
                elif not same_said(known[name], it):
                    known[name] = merged(known[name], Break(it.id, it.start, it.end, it.duration, it.planned, it.out, it.back))
        self.known = known

    def mark(self, moment: Moment, instant: int | None) -> Mark | None:
        """The mark of the segment after the newest one."""
        if self.run is not None and rules.is_inside(self.known.get(self.run.mark.id), self.run.mark.pod, instant, self.tolerance):
            return self.run.mark
        if not any(one.start is not None and instant is not None and abs(instant - one.start) <= self.tolerance for one in moment.breaks):
            return None
        return rules.entered(moment, self.entered, instant)

    def show(self, playlist: Playlist) -> None:
        """Takes in the segments that are new, and writes what is due of the newest run."""
        moment = Moment(self.tolerance, playlist.target, playlist.has_init_sections(), list(self.known.values()), self.store)
        new = [(place, it) for place, it in enumerate(playlist.segments) if self.newest is None or it.number > self.newest.number]
        is_timed = any(it.time is not None for it in playlist.segments)
        for place, it in new:
            later = list(playlist.segments[place + 1:]) if is_timed and it.time is None and self.ended is None else []
            instant = begins_at(self.ended, it, later)
            self.add(it, instant, self.mark(moment, instant))
        if self.run is not None:
            self.write_run(self.run, playlist.ended)

    def add(self, it: Segment, instant: int | None, mark: Mark | None) -> None:
        """The segment `it` begins at the `instant`, and has the `mark`."""
        was = self.run
        if was is not None and (mark is None or mark.id != was.mark.id):
            self.write_run(was, True)
            self.run = None
        if mark is not None:
            if self.run is None:
                self.run, self.entered = Run(mark), mark.id
            self.places[it.number] = self.dropped + len(self.items) - self.run.written
            self.run.lasted += it.nanos
        else:
            self.places[it.number] = self.dropped + len(self.items)
        if self.newest is None:
            self.first = it
        if mark is None:
            self.write(Piece(it, instant))
        self.newest, self.ended = it, instant + it.nanos if instant is not None else None

    def write(self, piece: Piece) -> None:
        """The piece comes next."""
        if not self.items:
            one = self.first
            number = (one.number, one.discontinuity, one.steps) if piece.mark is None else (one.number, one.discontinuity + 1, 1)
            self.items.append(Item(piece, *number))
            return
        last = self.items[-1]
        if piece.mark is not None:
            steps = int(piece.first_of_ad)
        else:
            steps = 1 if last.piece.mark is not None else piece.segment.discontinuity - last.piece.segment.discontinuity
        self.items.append(Item(piece, last.media + 1, last.discontinuity + steps, steps))

    def write_run(self, run: Run, is_whole: bool) -> None:
        """Writes what is due of the pod of a `run`; all of it if that `is_whole`."""
        pieces = pieces_of(run.mark.pod)
        due, lasts = len(pieces), 0
        for count, it in enumerate(pieces if not is_whole else (), 1):
            lasts += it.segment.nanos
            if lasts >= run.lasted:
                due = count
                break
        for it in pieces[run.written:due]:
            self.write(Piece(it.segment, None, run.mark, it.first_of_ad))
        run.written = max(run.written, due)

    def forget(self, first: int) -> None:
        """Forgets what comes before the window, and the places of segments before `first`."""
        while self.dropped < self.start - 1:  # (the last one before it stays: numbers go on from it)
            self.items.popleft()
            self.dropped += 1
        for number in [it for it in self.places if it < first]:
            del self.places[number]

    def window(self) -> Iterator[Item]:
        """The written items."""
        items = iter(self.items)
        for _ in range(self.start - self.dropped):
            next(items)
        return items

    def in_use(self) -> list[str]:
        """The breaks of which a segment of the pod is written, and the one that was entered last."""
        found = dict.fromkeys(it.piece.mark.id for it in self.window() if it.piece.mark is not None)
        return list(found | ({self.entered: None} if self.entered is not None else {}))

    def text(self) -> str | None:
        """The written text; none before the first list."""
        return None if self.last is None else text_of(self.last, list(self.window()), self.in_use())


@dataclass
class Controller:
    """A process: its channels by their names."""

    channels: dict[str, Channel] = field(default_factory=dict)
    is_made: Edge = field(default_factory=Edge)  # judges bodies that make a channel

    def make(self, name: str, body: bytes) -> Reply:
        """Makes a channel."""
        reply = self.is_made.make(name, body)
        if reply.status == 201:
            one = self.is_made.channels[name]
            self.channels[name] = Channel(one.base, one.tolerance)
        return reply

    def answer(self, request: Request) -> Reply:
        """What a request is answered, after which the channels are as it makes them."""
        route = edge.route_of(request.target)
        if route is None:
            return Reply(404, "not found\n")
        name, what = route
        try:
            if (request.method, what) == ("PUT", ""):
                return self.make(name, request.body)
            return self.of_channel(name, request.method + what, request.body)
        except Fault as fault:
            return refused(fault)

    def of_channel(self, name: str, what: str, body: bytes) -> Reply:
        """What is answered of a channel that has to be there."""
        it = self.channels.get(name)
        if it is None:
            return Reply(404, "not found\n")
        if what == "PUT/origin":
            it.refresh(body)
        elif what == "PUT/decisions":
            it.store = decided(it.store, decisions(body))
        elif what == "GET/live.m3u8":
            text = it.text()
            return Reply(404, "not found\n") if text is None else Reply(200, text, edge.PLAYLIST)
        elif what == "DELETE":
            del self.channels[name], self.is_made.channels[name]
        else:
            return Reply(405, "method not allowed\n")
        return Reply(204)

    def items(self, name: str) -> Iterable[Written]:
        """What viewers have of a channel."""
        it = self.channels.get(name)
        return () if it is None or it.last is None else map(written, it.window())

    def held(self, name: str, id_: str) -> bool:
        """Whether a channel holds a decision of the break `id_`."""
        it = self.channels.get(name)
        return it is not None and it.store.entry(id_) is not None
