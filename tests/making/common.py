"""What the generators of vectors share: choices, splice sections, times, decision files, and an origin whose window moves."""
from __future__ import annotations

import json
from dataclasses import dataclass, field
from random import Random

from adsplice_rules.splice import crc_of
from adsplice_rules.times import duration_text, instant_of, instant_text
from adsplice_rules.values import SECOND

NOON = instant_of("2024-05-01T12:00:00Z") or 0
BASES = ("http://origin.example/ch/index.m3u8", "https://user@h.example:8443/a/b/c.m3u8?x=1#y", "http://[::1]/",
         "HTTP://Origin.Example/ch/../é/")
MILLISECOND = 10**6
TOLERANCE = 100 * MILLISECOND
IDS = ("b1", "b2", "b3", "ad-1", "x:y,z", "é", "break 1")
FORMATS = ("identity", "com.widevine", "com.apple.streamingkeydelivery", "é", "", "z" * 40)


def is_lucky(rng: Random, share: float) -> bool:
    """Whether a chance of this share comes true."""
    return rng.random() < share


# ---- splice sections

def insert_bytes(rng: Random, out: bool, ticks: int | None, cancelled: bool) -> bytes:
    """The bytes of a splice_insert: of a program or of components, immediate or with times."""
    event = rng.getrandbits(32).to_bytes(4, "big")
    if cancelled and is_lucky(rng, 0.5):
        return event + b"\xff"
    program, immediate = rng.choice(((True, True), (True, True), (True, False), (False, True), (False, False)))
    flags = out << 7 | program << 6 | (ticks is not None) << 5 | immediate << 4 | rng.choice((15, 15, 0))
    time = rng.choice((b"\x7f", (rng.getrandbits(33) | 0xFE << 32).to_bytes(5, "big")))
    timed = b"" if immediate else time
    count = rng.choice((0, 1, 3))
    target = timed if program else bytes([count]) + b"".join(bytes([n]) + timed for n in range(count))
    length = b"" if ticks is None else (ticks | rng.choice((0xFE, 0x7E, 0)) << 32).to_bytes(5, "big")
    return event + (b"\xff" if cancelled else b"\x7f") + bytes([flags]) + target + length + rng.getrandbits(32).to_bytes(4, "big")


def section_bytes(rng: Random, command: bytes, kind: int, length: int) -> bytes:
    """A section of this command, under this splice_command_type and splice_command_length."""
    descriptors = rng.choice((b"", b"", b"\x00\x08CUEI\x00\x00\x00\x01"))
    heading = (rng.choice((0, rng.getrandbits(33)))).to_bytes(5, "big") + bytes([rng.getrandbits(8)])
    heading += (0xFFF << 12 | length).to_bytes(3, "big") + bytes([kind])
    rest = b"\0" + heading + command + len(descriptors).to_bytes(2, "big") + descriptors + bytes(rng.choice((0, 0, 2)))
    front = b"\xfc" + (rng.choice((0x3000, 0x0000, 0xB000)) | len(rest) + 4).to_bytes(2, "big") + rest
    return front + rng.choice((crc_of(front), 0)).to_bytes(4, "big")


def spoiled(rng: Random, section: bytes) -> str:
    """A section that doesn't read, in digits."""
    how = rng.randrange(9)
    changed = bytearray(section)
    if how < 4:
        place, value = ((0, 0xFD), (2, section[2] ^ 1), (3, 1), (4, 0x80))[how]
        changed[place] = value
    texts = {4: "0x" + section.hex()[:-1], 5: section.hex(), 6: "0x" + section[:19].hex(), 7: "0xzz",
             8: "0x" + (section[:12] + bytes([section[12] ^ 1]) + section[13:]).hex()}
    return texts.get(how, "0x" + changed.hex())


def signal(rng: Random, out: bool = True, ticks: int | None = None) -> str:
    """A section in hexadecimal digits that leaves the network or returns to it; at times one that does neither."""
    command, kind = insert_bytes(rng, out, ticks, is_lucky(rng, 0.05)), 5
    if is_lucky(rng, 0.04):
        command, kind = rng.choice(((b"\xfe\0\0\0\0", 6), (b"", 0)))
    length = 0xFFF if is_lucky(rng, 0.15) else len(command)
    section = section_bytes(rng, command, kind, length)
    if is_lucky(rng, 0.06):
        return spoiled(rng, section)
    digits = section.hex().upper() if is_lucky(rng, 0.5) else section.hex()
    return rng.choice(("0x", "0x", "0X")) + digits


# ---- decision files

def pod_segment(rng: Random, name: str, nanos: int) -> dict[str, object]:
    """A segment of a pod."""
    made: dict[str, object] = {"uri": f"http://ads.example/{name}", "duration": duration_text(nanos)}
    if is_lucky(rng, 0.1):
        made |= {"offset": rng.randrange(1000), "length": rng.choice((0, 5, 2**64 - 2000))}
    return made


def pod_ads(rng: Random, with_init_sections: bool, target: int, length: int) -> list[dict[str, object]]:
    """Ads that last about so long: as long as that, a nanosecond off, shorter or longer; each segment within the target, but at
    times."""
    total = max(0, length + rng.choice((0, 0, 0, 1, -1, -SECOND, SECOND, -length // 2, length // 2)))
    sizes: list[int] = []
    most = target * SECOND
    while total > 0 and len(sizes) < 12:
        size = min(total, rng.choice((most, most, 2 * SECOND, most - 1, most // 3 + 1)))
        sizes.append(size)
        total -= size
    sizes = sizes or [0]
    if is_lucky(rng, 0.06):
        sizes[rng.randrange(len(sizes))] = rng.choice((most + SECOND // 2 - 1, most + SECOND // 2, most + 5 * SECOND))
    if is_lucky(rng, 0.1):
        sizes.append(0)
    ads: list[dict[str, object]] = []
    tag = rng.choice("acdxy")
    while sizes:
        count = rng.choice((1, 2, len(sizes)))
        ad: dict[str, object] = {}
        if with_init_sections != is_lucky(rng, 0.04):
            ad["map"] = {"uri": "http://ads.example/i.mp4"}
            if is_lucky(rng, 0.2):
                ad["map"] = {"uri": "http://ads.example/i.mp4", "offset": 0, "length": 9}
        if is_lucky(rng, 0.15):
            key = {"method": rng.choice(("AES-128", "SAMPLE-AES", "X")), "uri": "http://ads.example/k", "iv": "0x0A"}
            if is_lucky(rng, 0.4):
                key["format"] = rng.choice(("com.widevine", "identity", "é"))
            ad["key"] = key
        ad["segments"] = [pod_segment(rng, f"{tag}{len(ads)}{n}.ts", size) for n, size in enumerate(sizes[:count])]
        ads.append(ad)
        sizes = sizes[count:]
    return ads


def json_text(rng: Random, value: object) -> bytes:
    """A JSON text of a value, laid out in one of several ways."""
    return json.dumps(value, ensure_ascii=is_lucky(rng, 0.3), indent=rng.choice((None, None, None, 1)),
                      separators=rng.choice(((",", ":"), (" ,", ": ")))).encode()


# ---- an origin

@dataclass
class Piece:
    """A segment of an origin: its lines, and what stands before it."""

    uri: str
    nanos: int
    start: int
    states_time: bool
    title: str = ""
    part: str = ""
    steps: int = 0
    keys: list[str] = field(default_factory=list)
    init_section: str = ""


class Origin:
    """An origin whose segments are made one after the other; a window lists those of some numbers."""

    def __init__(self, rng: Random, is_rich: bool = True) -> None:
        """Draws what stays the same; `is_rich` has byte ranges, keys, sections and discontinuities at times."""
        self.rng, self.is_rich = rng, is_rich and is_lucky(rng, 0.6)
        self.target = rng.choice((10, 10, 6, 2))
        self.version: int | None = rng.choice((None, 1, 3, 6, 7, 7))
        self.kind = rng.choice((None, None, None, "EVENT", "VOD"))
        self.independent = is_lucky(rng, 0.2)
        self.has_init_sections = self.is_rich and is_lucky(rng, 0.35)
        self.first = rng.choice((7, 2**32)) if is_lucky(rng, 0.3) else rng.choice((0,) * 20 + (2**64 - 9, 2**64 - 30))
        self.discontinuity = rng.choice((5, 2**64 - 9, 2**64 - 3, 2**64 - 2)) if is_lucky(rng, 0.15) else 0
        self.times = rng.choice(("first", "first", "all", "some", "late", "none") if is_lucky(rng, 0.4) else ("first",))
        self.pieces: list[Piece] = []
        self.ranges: list[str] = []
        self.breaks: list[tuple[str, int]] = []  # each break's ID, and how long it lasts about
        self.last_places: set[int] = set()  # those of the last segment of a break

    def size(self) -> int:
        """The duration of a segment."""
        most = self.target * SECOND
        return self.rng.choice((most, most, most, most, most - 1, most // 2, 2_002 * MILLISECOND, 0)) if self.is_rich else most

    def states_time(self, place: int) -> bool:
        """Whether the segment at this place states its time."""
        return {"first": place == 0, "all": True, "some": is_lucky(self.rng, 0.4), "late": place == 2, "none": False}[self.times]

    def key_lines(self) -> list[str]:
        """Changed keys, at times."""
        rng = self.rng
        if not is_lucky(rng, 0.25):
            return []
        if is_lucky(rng, 0.35):
            again = ['#EXT-X-KEY:METHOD=X,URI="k",IV=0x1,KEYFORMAT="f"', '#EXT-X-KEY:METHOD=X,URI="k",KEYFORMAT="g"']
            return ["#EXT-X-KEY:METHOD=NONE", *rng.sample(again, rng.choice((0, 1, 1, 2)))]
        name = rng.choice(FORMATS[:4])
        iv = f",IV=0x{rng.getrandbits(16):X}" if self.has_init_sections or is_lucky(rng, 0.4) else ""
        return [f'#EXT-X-KEY:METHOD={rng.choice(("AES-128", "SAMPLE-AES"))},URI="k{rng.randrange(4)}"{iv}'
                + (f',KEYFORMAT="{name}"' if name != "identity" else "")]

    def grow(self, count: int) -> None:
        """Makes so many segments more."""
        rng = self.rng
        for _ in range(count):
            place = len(self.pieces)
            before = self.pieces[-1] if self.pieces else None
            start = before.start + before.nanos if before else NOON
            if self.is_rich and self.times in ("all", "some") and is_lucky(rng, 0.1):
                start += rng.choice((-1, 1)) * rng.choice((1, MILLISECOND, TOLERANCE, TOLERANCE + 1, 7 * SECOND))
            made = Piece(f"s{place}.ts", self.size(), start, self.states_time(place))
            if self.is_rich:
                made.title = rng.choice(("", "", "", "a title, with é"))
                made.part = rng.choice(("", "", f"{rng.randrange(1, 99)}@{rng.randrange(99)}"))
                made.steps = rng.choice((0, 0, 0, 0, 1, 2))
                made.keys = self.key_lines()
            if self.has_init_sections and (place == 0 or is_lucky(rng, 0.15)):
                made.init_section = f'#EXT-X-MAP:URI="i{rng.randrange(3)}.mp4"' + rng.choice(("", ',BYTERANGE="9@4"'))
            self.pieces.append(made)

    def ticks(self, length: int) -> int | None:
        """A break_duration of about this length, or none."""
        return self.rng.choice((None, length * 9 // 100_000, length * 9 // 100_000 + 1))

    def add_break(self, place: int, count: int) -> None:
        """Adds a break that begins at the segment at this place, within the tolerance or a nanosecond past it, and lasts about so
        many segments; its end is said in one of all ways."""
        rng, start = self.rng, self.pieces[place].start
        length = sum(piece.nanos for piece in self.pieces[place:place + count]) or count * self.target * SECOND
        off = rng.choice((0, 0, 0, 0, 0, TOLERANCE, -TOLERANCE, TOLERANCE + 1, -TOLERANCE - 1, 1, 3 * SECOND))
        name = rng.choice([one for one in IDS if one not in dict(self.breaks)] or ["b9"])
        end = length + rng.choice((0, 0, 0, 0, TOLERANCE, TOLERANCE + 1, TOLERANCE - 1, -TOLERANCE))
        said = [f'ID="{name}"', f'START-DATE="{instant_text(start + off)}"', f"SCTE35-OUT={signal(rng, ticks=self.ticks(length))}"]
        said += [text for text, share in (
            (f'END-DATE="{instant_text(start + end)}"', 0.12), (f"DURATION={duration_text(end)}", 0.25),
            (f"PLANNED-DURATION={duration_text(end)}", 0.15), (f"SCTE35-IN={signal(rng, out=False)}", 0.06),
            ('X-COM-EXAMPLE="a,b"', 0.1), (f'SCTE35-IN="{signal(rng)}"', 0.02)) if is_lucky(rng, share)]
        if is_lucky(rng, 0.08):
            said.pop(rng.choice((1, 2)))
        if is_lucky(rng, 0.2):
            rng.shuffle(said)
        self.ranges.append("#EXT-X-DATERANGE:" + ",".join(said))
        self.breaks.append((name, length))
        self.last_places.add(place + count - 1)

    def more_said(self, name: str) -> str:
        """A second date range of an ID, which says more of it, or otherwise."""
        rng = self.rng
        return rng.choice((f'#EXT-X-DATERANGE:ID="{name}",SCTE35-IN={signal(rng, out=False)}',
                           f'#EXT-X-DATERANGE:ID="{name}",DURATION={rng.choice((4, 10, 20))}',
                           f'#EXT-X-DATERANGE:ID="{name}",END-DATE="{instant_text(self.pieces[-1].start)}"'))

    def header(self, first: int) -> list[str]:
        """The tags of the whole playlist, for a window that begins at this place."""
        dropped = sum(piece.steps for piece in self.pieces[:first])
        lines = ["#EXTM3U", f"#EXT-X-TARGETDURATION:{self.target}"]
        lines += [f"#EXT-X-VERSION:{self.version}"] if self.version else []
        lines += [f"#EXT-X-MEDIA-SEQUENCE:{self.first + first}"] if self.first + first or is_lucky(self.rng, 0.5) else []
        if self.discontinuity + dropped:
            lines.append(f"#EXT-X-DISCONTINUITY-SEQUENCE:{self.discontinuity + dropped}")
        lines += [f"#EXT-X-PLAYLIST-TYPE:{self.kind}"] if self.kind else []
        return lines + (["#EXT-X-INDEPENDENT-SEGMENTS"] if self.independent else [])

    def in_force(self, first: int) -> list[str]:
        """The keys and the section in force where a window begins, with the keys that this section was read under."""
        lines: list[str] = []
        for piece in self.pieces[:first]:
            lines += piece.keys + ([piece.init_section] if piece.init_section else [])
        return lines

    def segment(self, place: int) -> list[str]:
        """The lines of a segment."""
        piece = self.pieces[place]
        time = [f"#EXT-X-PROGRAM-DATE-TIME:{instant_text(piece.start)}"] if piece.states_time else []
        part = [f"#EXT-X-BYTERANGE:{piece.part}"] if piece.part else []
        return ["#EXT-X-DISCONTINUITY"] * piece.steps + piece.keys + ([piece.init_section] if piece.init_section else []) + time + [
            f"#EXTINF:{duration_text(piece.nanos)},{piece.title}", *part, piece.uri]

    def window(self, first: int, last: int, ended: bool) -> list[str]:
        """The lines of a playlist of the segments from one place to another."""
        lines = self.header(first) + list(self.ranges) + self.in_force(first)
        for place in range(first, last + 1):
            lines += self.segment(place)
        return lines + (["#EXT-X-ENDLIST"] if ended else [])


def text_of(lines: list[str], rng: Random | None = None) -> bytes:
    """The bytes of lines; with choices, at times with CR LF or without the last line's end."""
    end = "\r\n" if rng and is_lucky(rng, 0.1) else "\n"
    text = end.join(lines) + ("" if rng and is_lucky(rng, 0.1) else end)
    return text.encode()
