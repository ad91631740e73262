"""A packager whose truth is known: what of the programme each of its segments has."""
from __future__ import annotations

import re
from collections import deque
from collections.abc import Iterable, Iterator
from typing import NamedTuple

from adsplice_rules.times import duration_text, instant_text

from .plan import Plan, Span

EPOCH = 1_700_000_000_000  # the instant at which the programme and the day begin, in milliseconds from 1970
MILLION = 10**6
DELAY = 400  # milliseconds from a segment's end until it is listed
OUT = "0xFC302000000000000000FFF00F05000000017FFFFE002932E00001" + "0" * 16
FRAMES = 1024_000, 48_000  # milliseconds of an AAC frame, as a fraction
KEPT = 40  # lists that a cache may still have
BASE = "http://o.example"
SECOND_RUN = 500  # of the second packager behind an address
STATED = 9  # the IV of keys that state one
LEAST = 300  # milliseconds that a segment in progress has, at the least, when it is listed
NEWEST_BY = {"corrected": 1.05, "part": 0.6}
URI = re.compile(r"(?m)^([0-9]+/[0-9]+\.ts(?:\?.*)?)$")
NEWEST = re.compile(r"(.*#EXTINF:)([0-9.]+)(,.*)", re.S)


class Cut(NamedTuple):
    """A segment: from when to when it has the programme (milliseconds), its `uri` without a base, its `text`, what its clock was ahead, its
    discontinuities, the names of its `key` and its initialisation `section`, if it has these, and the IV."""

    begin: int
    end: int
    uri: str
    text: str
    clock: int
    steps: int
    key: str = ""
    iv: int = 0
    section: str = ""


def plain(uri: str, name: str) -> str:
    """The `uri` of a segment of the rendition `name` as its packager has it, however that is spelled in a list."""
    return "/".join([BASE, name, *uri.partition("?")[0].split("/")[-2:]])


def instant(milliseconds: int) -> str:
    """An instant of the programme as a list states it."""
    return instant_text((EPOCH + milliseconds) * MILLION)


class Packager:
    """The packager of the rendition `name`: `cuts` are those that it listed since it began (again), `truth` all of them by their URIs. `first`: the
    other packager behind the same address, if this one is the second."""

    def __init__(self, plan: Plan, name: str, first: Packager | None = None) -> None:
        self.plan, self.name = plan, name
        self.shift = plan.cuts if name == "a" else 0
        self.speaks, self.length = name in plan.speakers, plan.target * plan.times(name)
        self.next = -plan.window - 1  # the number of the next cut of the programme
        self.twin = plan.twin if first is not None else None
        self.run = SECOND_RUN if first is not None else 0  # how often it began
        self.base = (7 if self.twin is None else self.twin.base) + (0 if plan.in_step else 3 * plan.names.index(name))  # its first media number
        self.cuts: deque[Cut] = deque()
        self.gone, self.gone_steps = 0, 0  # segments and discontinuities that left the list since it began
        self.truth: dict[str, Cut] = {} if first is None else first.truth
        self.all: list[Cut] = []
        self.lag, self.lag_until, self.still_until, self.away_until = 0, 0, 0, 0
        self.lost: int | None = None  # whether it has lost segments of which a discontinuity tells, if it does
        self.clock = 0
        self.spelled: tuple[str, ...] = ()
        self.token = 0
        self.growing: Cut | None = None  # the segment in progress, if it is listed
        self.bodies: deque[tuple[int, bytes]] = deque(maxlen=KEPT)
        self.hidden: dict[str, int] = {}  # breaks that come late into its lists, by milliseconds

    def cut_at(self, number: int) -> int:
        """Where the programme is cut for the `number`th time."""
        at = number * self.length
        if self.shift >= 0:
            return at + self.shift
        return -(-at * FRAMES[1] // FRAMES[0]) * FRAMES[0] // FRAMES[1]

    def tags(self, begin: int) -> tuple[str, int]:
        """The tags of the segment that begins there, and its discontinuities."""
        half, found, steps = self.length // 2, "", 0
        for it in self.plan.breaks:
            if begin < it.start - half or begin > it.planned + half:
                continue
            begins, ends = -half < begin - it.start <= half, -half < begin - it.end <= half
            if self.plan.marks and (begins or ends):
                steps = 1
            if self.speaks and self.plan.style != "ranges":
                found += self.cues(it, begins, ends)
        return "#EXT-X-DISCONTINUITY\n" * steps + found, steps

    def cues(self, it: Span, begins: bool, ends: bool) -> str:
        """The cues of a break before a segment."""
        if begins:
            return "#EXT-X-CUE-OUT\n" if self.plan.style == "endless cues" else f"#EXT-X-CUE-OUT:{(it.planned - it.start) / 1000}\n"
        return "#EXT-X-CUE-IN\n" if ends else ""

    def go_on(self, now: int) -> None:
        """Cuts what is over at the moment `now`, in milliseconds."""
        if now < self.still_until:
            return
        delay = DELAY + (self.lag if now < self.lag_until else 0) + (self.twin.late if self.twin is not None else 0)
        while (end := self.cut_at(self.next + 1)) + delay <= now:
            begin, self.next = self.cut_at(self.next), self.next + 1
            if begin < self.away_until:
                self.lost, self.growing = 1 if self.lost is not None else None, None
                continue  # (it was away: that is lost at the packager)
            one, self.growing = self.cut(begin, end), None
            self.lost = None if self.lost else self.lost
            self.cuts.append(one)
            self.all.append(one)
            self.truth[f"{BASE}/{self.name}/{one.uri}"] = one
        while len(self.cuts) > self.plan.window:
            self.gone, self.gone_steps = self.gone + 1, self.gone_steps + self.cuts.popleft().steps
        self.go_on_growing(now - delay)

    def cut(self, begin: int, end: int, number: int = 0) -> Cut:
        """The segment from `begin` to `end`, which is the next one that is listed, or the one after so many."""
        text, steps = self.tags(begin)
        if self.lost and not steps:
            text, steps = f"#EXT-X-DISCONTINUITY\n{text}", 1
        uri = f"{self.run}/{self.next + number:0{self.twin.digits if self.twin is not None else 0}}.ts"
        clock = self.clock if self.growing is None else self.growing.clock
        text += f"#EXT-X-PROGRAM-DATE-TIME:{instant(begin + clock)}\n#EXTINF:{duration_text((end - begin) * MILLION)},\n{uri}"
        key = f"k{self.run}-{(self.next + number) // self.plan.rotates if self.plan.rotates else 0}" if self.plan.keys else ""
        iv = self.base + self.gone + len(self.cuts) if self.plan.keys == "number" else STATED
        return Cut(begin, end, uri, text, clock, steps, key, iv, f"init{self.run}.mp4" if self.plan.maps else "")

    def go_on_growing(self, now: int) -> None:
        """The segment in progress at the moment `now`, if it is listed before it is whole."""
        begin, end = self.cut_at(self.next), self.cut_at(self.next + 1)
        if "grows" in self.spelled and begin >= self.away_until and self.cuts and begin + LEAST <= now < end:
            self.growing = self.cut(begin, now, 1)
            self.truth[f"{BASE}/{self.name}/{self.growing.uri}"] = self.growing._replace(end=end)

    def begin_again(self, now: int, seconds: float) -> None:
        """It begins again, and is away for so many seconds. The rest of a segment in progress is lost."""
        if self.growing is not None:
            self.truth[f"{BASE}/{self.name}/{self.growing.uri}"] = self.growing
            self.next, self.growing = self.next + 1, None
        self.run, self.away_until = self.run + 1, now + round(seconds * 1000) - self.length
        self.cuts.clear()
        self.gone, self.gone_steps, self.base = 0, 0, 0
        self.still_until = self.lag_until = 0

    def ranges(self) -> list[str]:
        """The date ranges of its list."""
        first, end, found = self.cuts[0].begin, self.cuts[-1].end, []
        for it in self.plan.breaks if self.plan.style == "ranges" and self.speaks else ():
            if it.start - it.announces + self.hidden.get(it.name, 0) <= end and it.planned > first:
                clock = next((one.clock for one in self.cuts if one.end > it.start), self.clock)
                by = next((one.clock for one in self.cuts if one.end > it.end), self.clock)
                over = f",END-DATE=\"{instant(it.end + by)}\"" if it.end <= end else ""
                found.append(f'#EXT-X-DATERANGE:ID="{it.name}",START-DATE="{instant(it.start + clock)}",PLANNED-DURATION={(it.planned - it.start) / 1000}{over},SCTE35-OUT={OUT}')
        return found

    def listed(self, now: int) -> bytes | None:
        """Its list at the moment `now`; none if it has no segment yet."""
        self.go_on(now)
        if not self.cuts:
            return None
        steps = [f"#EXT-X-DISCONTINUITY-SEQUENCE:{self.gone_steps}"] if self.gone_steps else []
        head = ["#EXTM3U", "#EXT-X-VERSION:3", f"#EXT-X-TARGETDURATION:{-(-self.length // 1000)}", f"#EXT-X-MEDIA-SEQUENCE:{self.base + self.gone}", *steps]
        self.token += 1
        cuts = [*self.cuts, self.growing] if self.growing is not None else self.cuts
        body = self.otherwise("\n".join([*head, *self.ranges(), *self.segments(cuts), ""])).encode()
        if not self.bodies or self.bodies[-1][1] != body:
            self.bodies.append((now, body))
        return body

    def segments(self, cuts: Iterable[Cut]) -> Iterator[str]:
        """The lines of the segments `cuts`, with keys and initialisation sections where they change, or where the list begins."""
        key = section = ""
        for it in cuts:
            has_map = it.section != section or self.plan.maps == "each" and it.key != key
            if has_map and self.plan.maps == "first":
                yield self.map_line(it)
            if it.key != key:
                yield self.key_line(it)
            if has_map and self.plan.maps != "first":
                yield self.map_line(it)
            key, section = it.key, it.section
            yield it.text

    def map_line(self, it: Cut) -> str:
        """The EXT-X-MAP of the segment `it`."""
        return f'#EXT-X-MAP:URI="{it.section}{self.query("section")}"'

    def key_line(self, it: Cut) -> str:
        """The EXT-X-KEY of the segment `it`."""
        folder = f"{self.token}/" if "key's folder" in self.spelled else ""
        iv = f",IV=0x{it.iv:X}" if self.plan.keys != "number" else ""
        return f'#EXT-X-KEY:METHOD={"SAMPLE-AES" if self.plan.keys == "sample" else "AES-128"},URI="http://k.example/{folder}{it.key}{self.query("key")}"{iv}'

    def query(self, word: str) -> str:
        """The token of what is spelled otherwise in each list by a `word`."""
        return f"?t={self.token}" if word in self.spelled else ""

    def otherwise(self, text: str) -> str:
        """The list `text` with what it spells otherwise of segments: a token in queries or in folders, hosts by turns, the newest segment's duration
        before that is right or as far as it has come, other ends of lines."""
        for word in self.spelled:
            if word == "query":
                text = text.replace(".ts\n", f".ts?t={self.token}\n")
            elif word == "line ends":
                text = text.replace("\n", "\r\n")
            elif word == "folder":
                text = URI.sub(rf"t{self.token}/\1", text)
            elif word == "host":
                text = URI.sub(rf"http://o{self.token % 2}.example/{self.name}/\1", text)
            elif word in NEWEST_BY:
                text = NEWEST.sub(lambda it, by=NEWEST_BY[word]: f"{it[1]}{float(it[2]) * by:.3f}{it[3]}", text)
        return text

    def older(self, now: int, by: int) -> bytes | None:
        """The list that it had so many milliseconds before `now`."""
        self.listed(now)
        return next((body for at, body in reversed(self.bodies) if at <= now - by), None)
