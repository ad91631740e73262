"""What texts that a stranger makes to hold a server cost it: processor time for each byte that came or went, at two sizes.

A cost that is linear in the bytes is about the same for each byte at both sizes. One that is their square is four times as
much for each byte at four times the size.
"""
import datetime
import json
import os
import random
import re
import time
from collections.abc import Callable
from dataclasses import dataclass, field
from typing import Any

MAX_BYTES = 4_194_304
MAX_SEGMENTS = 10_000
OUT = b"0xFC302000000000000000FFF00F05000000017FFFFE002932E000010000000000000000"
# (it returns to the network: the break is closed)
IN = b"0xFC302000000000000000FFF00F05000000017F7FFE002932E000010000000000000000"
HEAD = b"#EXTM3U\n#EXT-X-VERSION:7\n#EXT-X-TARGETDURATION:10\n"
TIME = b"#EXT-X-PROGRAM-DATE-TIME:2024-05-01T12:00:00Z\n"
LATER = b"#EXT-X-PROGRAM-DATE-TIME:2034-05-01T12:00:00Z\n"  # after each break
BEGIN = datetime.datetime(2024, 5, 1, 12)
BASE = b"http://origin.example/ch/index.m3u8"
ROUTE = b"/channels/held"

# ---- IDs that collide

MASK = (1 << 64) - 1
START, MULTIPLIER = 0x243F6A8885A308D3, 0x9E3779B97F4A7C15


def folded(one: int, other: int) -> int:
    """Both halves of a product: one step of the hash that the kit's tables have by default, whose seed is fixed."""
    product = one * other
    return (product & MASK) ^ (product >> 64)


def colliding_ids(count: int) -> list[bytes]:
    """IDs of 48 printable characters that have one value under that hash: the first 16 make its state spell a text, and the
    next 8 repeat that text, so that the product with what follows is nothing."""
    draw, allowed = random.Random(1), set(range(0x23, 0x7F)) - {0x5C}
    letters = b"ABCDEFGHIJKLMNOPQRSTUVWXYZabcdefghijklmnopqrstuvwxyz0123456789-_"
    while True:
        front = bytes(draw.choice(letters) for _ in range(16))
        halves = (int.from_bytes(front[:8], "little"), int.from_bytes(front[8:], "little"))
        state = folded(halves[0] ^ ((START + 48) & MASK), halves[1] ^ MULTIPLIER).to_bytes(8, "little")
        if allowed.issuperset(state):
            return [front + state + b"%08d" % number + b"0" * 16 for number in range(count)]


# ---- texts

def segments(count: int) -> bytes:
    return b"".join(b"#EXTINF:1,\ns%d\n" % number for number in range(count))


def date_ranges(ids: list[bytes]) -> bytes:
    return HEAD + b"".join(b'#EXT-X-DATERANGE:ID="%s"\n' % it for it in ids) + segments(1)


def moment(millis: int) -> bytes:
    return (BEGIN + datetime.timedelta(milliseconds=millis)).strftime("%Y-%m-%dT%H:%M:%S.%fZ").encode()


def break_tag(name: bytes, start: bytes, more: bytes = b"") -> bytes:
    return b'#EXT-X-DATERANGE:ID="%s",START-DATE="%s"%s,SCTE35-OUT=%s\n' % (name, start, more, OUT)


def break_each(count: int, length: int) -> bytes:
    """Each segment in a break of its own, with an ID of so many characters."""
    tags = b"".join(break_tag(b"%0*d" % (length, number), moment(1000 * number), b",DURATION=1") for number in range(count))
    return HEAD + tags + TIME + segments(count)


def one_break(count: int, length: int) -> bytes:
    """Segments in one break, with an ID of so many characters."""
    return HEAD + break_tag(b"b" * length, moment(0), b",DURATION=100000") + TIME + segments(count)


def closed_break(count: int, length: int) -> bytes:
    """A break that is closed, with such an ID: no segment stays in it, and each asks whether it was entered last."""
    each = b"".join(TIME + b"#EXTINF:1,\ns\n" for _ in range(count))
    return HEAD + break_tag(b"b" * length, moment(0), b",SCTE35-IN=" + IN) + each


def at(millis: int) -> bytes:
    """A segment that begins then."""
    return b"#EXT-X-PROGRAM-DATE-TIME:%s\n#EXTINF:1,\ns\n" % moment(millis)


def breaks_in_turns(count: int, length: int, first: int = 0) -> bytes:
    """Two breaks with such IDs, which segments enter in turns. The segments are numbered from `first` on."""
    tags = b"".join(break_tag(b"b" * length + b"%d" % number, moment(1000 * (number + 1)), b",DURATION=1") for number in range(2))
    return HEAD + b"#EXT-X-MEDIA-SEQUENCE:%d\n" % first + tags + b"".join(at(1000 * (1 + number % 3)) for number in range(first, first + count))


def long_after_small(count: int, length: int) -> bytes:
    """A break with such an ID, which is entered again after each two small ones."""
    small = b"".join(break_tag(b"%d" % number, moment(1000 * (number + 10)), b",DURATION=1") for number in range(count // 3 * 2))
    entered = b"".join(at(1000 * (2 * number + 10)) + at(1000 * (2 * number + 11)) + at(1000) for number in range(count // 3))
    return HEAD + break_tag(b"b" * length, moment(1000), b",DURATION=1") + small + entered


def long_among_small(count: int, length: int) -> bytes:
    """Two breaks with such IDs, and so many small ones between them and after them."""
    far = [break_tag(b"f%d" % number, b"2014-01-01T00:00:00Z") for number in range(count // 2)]
    near = [break_tag(b"%d" % number, moment(number + 1)) for number in range(count // 2)]
    front, back = (break_tag(b"L" * length + b"%d" % number, moment(0)) for number in (1, 2))
    return HEAD + front + b"".join(far) + back + b"".join(near) + LATER + segments(100)


def ended_breaks(count: int) -> bytes:
    """Breaks that all segments come after."""
    return HEAD + b"".join(break_tag(b"%05d" % number, moment(0), b",DURATION=100000") for number in range(count)) + LATER + segments(1)


def under(tag: bytes, count: int) -> bytes:
    """Segments under one tag."""
    return HEAD + tag + segments(count)


def format_keys(count: int, length: int) -> bytes:
    """Keys whose formats differ in their last characters."""
    return b"".join(b'#EXT-X-KEY:METHOD=SAMPLE-AES,URI="k",KEYFORMAT="%s%02d"\n' % (b"f" * length, number) for number in range(count))


def formats(count: int, length: int) -> bytes:
    """Segments under 16 keys with long formats."""
    return under(format_keys(16, length), count)


def moved(count: int, length: int, gone: int) -> bytes:
    """The same, once so many segments are gone and as many have come."""
    each = b"".join(b"#EXTINF:1,\ns%d\n" % number for number in range(gone, gone + count))
    return HEAD + b"#EXT-X-MEDIA-SEQUENCE:%d\n" % gone + format_keys(16, length) + each


def with_last_title(text: bytes) -> bytes:
    """The text with another title at its last segment."""
    front, _, last = text.rpartition(b"#EXTINF:1,")
    return front + b"#EXTINF:1,t" + last


def changing_key(count: int, length: int, each: bytes) -> bytes:
    """15 keys with long formats in force, and these lines at each segment, with its number."""
    return HEAD + format_keys(15, length) + b"".join(each.replace(b"%d", b"%d" % number) + b"#EXTINF:1,\ns\n" for number in range(count))


STEP = b"#EXT-X-DISCONTINUITY\n"
KEY = b'#EXT-X-KEY:METHOD=AES-128,URI="k",IV=0x%d\n'
SAME_MAP = KEY + b'#EXT-X-MAP:URI="m"\n'
KEY_AND_MAP = KEY + b'#EXT-X-MAP:URI="m%d"\n#EXT-X-KEY:METHOD=AES-128,URI="j",IV=0x%d\n'


def kept_large(part: float) -> tuple[bytes, bytes]:
    """A large playlist, and a small one after it that is refused, as it has another version."""
    count = int(10_000 * part)
    ranges = b"".join(b'#EXT-X-DATERANGE:ID="%06x"\n' % number for number in range(int(90_000 * part)))
    large = HEAD + segments(count - 1) + ranges + b"#EXTINF:1,\nlast\n"
    return large, b"#EXTM3U\n#EXT-X-TARGETDURATION:10\n#EXT-X-MEDIA-SEQUENCE:%d\n#EXTINF:1,\nx\n" % (count - 1)


def pod(count: int = 1, length: int = 1, duration: str = "1") -> dict[str, Any]:
    return {"ads": [{"segments": [{"uri": "http://ads.example/" + "a" * length, "duration": duration}] * count}]}


def fallback(count: int = 1, length: int = 1, duration: str = "1") -> bytes:
    return json.dumps({"fallback": pod(count, length, duration)}).encode()


def decision(name: str, count: int, length: int) -> bytes:
    return json.dumps({"breaks": [{"id": name, **pod(count, length)}]}).encode()


def breaks(ids: list[bytes]) -> bytes:
    return json.dumps({"breaks": [{"id": it.decode(), **pod()} for it in ids]}).encode()


def members(names: list[bytes]) -> bytes:
    """An object with a member for each of these names, beside a fallback."""
    return b'{"fallback":null,' + b",".join(b'"%s":1' % it for it in names) + b"}"


# ---- the kinds

@dataclass(frozen=True)
class Work:
    """What a new channel is given: decisions, and then playlists. If there are `measured` requests, these alone are measured,
    after the others; `all_bytes`: by the bytes of all of them."""

    decisions: list[bytes] = field(default_factory=list)
    playlists: list[bytes] = field(default_factory=list)
    base: bytes = BASE
    measured: list["Step"] = field(default_factory=list)
    all_bytes: bool = False


def twice(playlist: bytes, *decisions: bytes) -> Work:
    return Work(list(decisions), [playlist, playlist])


@dataclass(frozen=True)
class Kind:
    """What is given to a channel, of a part of the largest size. `grows`: it is known to cost more for each byte of a larger
    text, with what it costs at the largest size."""

    name: str
    made: Callable[[float], Work]
    grows: str = ""


FALLBACK = fallback()


def refused_small(part: float) -> Work:
    large, small = kept_large(part)
    return Work([], [large], measured=[(b"PUT", b"/origin", small)] * 20)


def reasons(part: float) -> Work:
    return Work([fallback(max(1, int(500 * part)))], [ended_breaks(int(24_000 * part))], measured=[(b"GET", b"/why", b"")] * 5, all_bytes=True)


def other_title(part: float) -> Work:
    text = formats(int(10_000 * part), int(250_000 * part))
    return Work([], [text, with_last_title(text), text])


def moving(part: float) -> Work:
    count, length = int(10_000 * part), int(250_000 * part)
    return Work([], [moved(count, length, 0), moved(count, length, count * 2 // 5)])


def turns_that_move(part: float) -> Work:
    count, length = int(10_000 * part), int(1_600_000 * part)
    return Work([FALLBACK], [breaks_in_turns(count, length), breaks_in_turns(count, length, count * 3 // 5)])


def long_base(part: float) -> Work:
    text = HEAD + segments(int(10_000 * part))
    return Work([], [text, text], base=b"http://origin.example/" + b"b" * int(20_000 * part) + b"/index.m3u8")


KINDS = [
    Kind("date ranges", lambda part: twice(date_ranges([b"%048d" % n for n in range(int(58_000 * part))]))),
    Kind("date ranges whose IDs collide", lambda part: twice(date_ranges(colliding_ids(int(58_000 * part))))),
    Kind("a decision file whose IDs collide", lambda part: Work([breaks(colliding_ids(int(26_000 * part)))])),
    Kind("a decision file whose members collide", lambda part: Work([members(colliding_ids(int(70_000 * part)))])),
    Kind("a decision file with one member again and again", lambda part: Work([members([b"a" * 48] * int(70_000 * part))])),
    Kind("each segment in a break of its own", lambda part: twice(break_each(int(10_000 * part), 240), FALLBACK)),
    Kind("segments of one long break", lambda part: twice(one_break(int(10_000 * part), 245), FALLBACK)),
    Kind("one break with a long ID", lambda part: twice(one_break(int(10_000 * part), int(4_000_000 * part)), FALLBACK)),
    Kind("a closed break with a long ID", lambda part: twice(closed_break(int(10_000 * part), int(3_500_000 * part)), FALLBACK)),
    Kind("two breaks with long IDs, entered in turns", lambda part: twice(breaks_in_turns(int(10_000 * part), int(1_600_000 * part)), FALLBACK)),
    Kind("two such breaks, and a window that moves", turns_that_move),
    Kind("a break with a long ID, after each two small ones", lambda part: twice(long_after_small(int(9_000 * part), int(1_800_000 * part)), FALLBACK)),
    Kind("two breaks with long IDs among small ones", lambda part: twice(long_among_small(int(11_000 * part), int(1_200_000 * part)), FALLBACK)),
    Kind("why of breaks that ended, under a long fallback", reasons),
    Kind("one EXT-X-MAP with a long URI", lambda part: twice(under(b'#EXT-X-MAP:URI="%s"\n' % (b"m" * int(4_000_000 * part)), int(10_000 * part)))),
    Kind("one key with a long URI", lambda part: twice(under(b'#EXT-X-KEY:METHOD=AES-128,URI="%s",IV=0x1\n' % (b"k" * int(4_000_000 * part)), int(10_000 * part)))),
    Kind("16 keys with long formats", lambda part: twice(formats(int(10_000 * part), int(250_000 * part)))),
    Kind("16 keys with long formats, then another title", other_title),
    Kind("16 keys with long formats, and a window that moves", moving),
    Kind("15 keys with long formats, and a discontinuity at each segment", lambda part: twice(changing_key(int(10_000 * part), int(250_000 * part), STEP))),
    Kind("15 keys with long formats, and one that changes", lambda part: twice(changing_key(int(10_000 * part), int(230_000 * part), KEY))),
    Kind("15 keys with long formats, one that changes and a map again", lambda part: twice(changing_key(int(10_000 * part), int(210_000 * part), SAME_MAP))),
    Kind("15 keys with long formats, a key and a map that change", lambda part: twice(changing_key(int(10_000 * part), int(180_000 * part), KEY_AND_MAP))),
    Kind("a small text that is refused, over a large one", refused_small),
    Kind("a long base", long_base),
    Kind("short breaks under a long fallback", lambda part: twice(break_each(max(1, int(60 * part)), 5), fallback(500, int(8_000 * part)))),
    Kind("each segment a break under a fallback of 500", lambda part: twice(break_each(int(10_000 * part), 5), fallback(500, 40, "0.002"))),
    Kind("decision files that fill a channel", lambda part: Work([decision("%05d" % n, 500, 8_100) for n in range(int(256 * part))])),
    Kind("one long title", lambda part: twice(HEAD + b"#EXTINF:1," + b"t" * int(4_000_000 * part) + b"\nhttp://x/s\n")),
    Kind("dot segments", lambda part: twice(HEAD + b"#EXTINF:1,\n" + b"a/../" * int(830_000 * part) + b"s\n")),
    Kind("discontinuities", lambda part: twice(HEAD + b"#EXT-X-DISCONTINUITY\n" * int(190_000 * part) + segments(1))),
]


Step = tuple[bytes, bytes, bytes]  # a method, a path and a body


# ---- what they cost

def processor_seconds(pid: int) -> float:
    """The processor time that a process of one thread took so far."""
    with open(f"/proc/{pid}/schedstat", encoding="ascii") as it:
        return int(it.read().split()[0]) / 1e9


def peak_bytes(pid: int) -> int:
    """The most memory that a process has had."""
    with open(f"/proc/{pid}/status", encoding="ascii") as it:
        found = re.search(r"VmHWM:\s+(\d+) kB", it.read())
    return int(found[1]) << 10 if found else 0


def steps_of(work: Work) -> list[Step]:
    """The requests on one channel, from its making on."""
    steps = [(b"PUT", ROUTE, b'{"base":"%s"}' % work.base)]
    steps += [(b"PUT", ROUTE + b"/decisions", it) for it in work.decisions]
    steps += [(b"PUT", ROUTE + b"/origin", it) for it in work.playlists]
    return steps


READS: list[Step] = [(b"GET", b"/live.m3u8", b""), (b"GET", b"/why", b"")]


def asked(server: Any, steps: list[Step]) -> int:
    """How many bytes came and went with these requests."""
    count = 0
    for method, path, body in steps:
        request = b"%s %s HTTP/1.1\r\nContent-Length: %d\r\n\r\n%s" % (method, path, len(body), body)
        count += len(request) + len(server.ask(request))
    return count


def round_of(server: Any, work: Work) -> tuple[float, int]:
    """One channel is made, given all this, read, and deleted: the processor seconds, and how many bytes came and went, of
    what is measured."""
    pid = server.running.pid
    begun = processor_seconds(pid)
    count = asked(server, steps_of(work))
    if work.measured:
        begun = processor_seconds(pid)
    measured = asked(server, [(method, ROUTE + path, body) for method, path, body in work.measured or READS])
    if work.measured:
        taken = processor_seconds(pid) - begun
    asked(server, [(b"DELETE", ROUTE, b"")])
    if work.measured:
        return taken, measured + count * work.all_bytes
    return processor_seconds(pid) - begun, count + measured


def cost(server: Any, work: Work, least: float = 0.3, most_rounds: int = 60) -> tuple[float, float]:
    """Processor seconds of one round, and for each byte that came or went. Short rounds are repeated."""
    rounds, taken, count = 0, 0.0, 0
    deadline = time.monotonic() + 30
    while True:
        seconds, bytes_ = round_of(server, work)
        rounds, taken, count = rounds + 1, taken + seconds, count + bytes_
        if taken >= least or rounds == most_rounds or time.monotonic() > deadline:
            return taken / rounds, taken / count


# ---- at the largest size

COLUMNS = ["Given", "Most bytes", "First", "Then", "Peak", "Another reader waited", "Grows"]


def told_bytes(count: int) -> str:
    return f"{count / 1e6:.1f} MB" if count >= 100_000 else f"{count / 1e3:.1f} KB"


def largest(server: Any, work: Work) -> list[str]:
    """The cells of a work: the most bytes of a push; the processor time of the first playlist (of all decisions if there is
    none), and of what is asked then; the most memory."""
    pid = server.running.pid
    made, *steps = steps_of(work)
    asked(server, [made])
    front = steps[:len(work.decisions)]
    later = steps[len(work.decisions):] + [(method, ROUTE + path, body) for method, path, body in work.measured[:1]]
    seconds = []
    for some in [front] + [[step] for step in later]:
        begun = processor_seconds(pid)
        asked(server, some)
        seconds.append(processor_seconds(pid) - begun)
    first, *then = seconds[1:] if work.playlists else seconds
    most = max(len(body) for _, _, body in steps)
    cells = [told_bytes(most), f"{first:.3f} s", f"{then[0]:.3f} s" if then else ""]
    return cells + [f"{peak_bytes(pid) >> 20} MiB"]
