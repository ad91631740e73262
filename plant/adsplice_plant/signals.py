"""Signals of breaks, as packagers write them into a list: what the tags of each style say.

adsplice knows one style, splice_insert in an EXT-X-DATERANGE. The others are read here; `translator` makes breaks of them."""
from __future__ import annotations

from dataclasses import dataclass, field, replace
from functools import lru_cache

from . import packaged, splice
from .playlist import SECOND
from .splice import Kind, Message, Unread

LONGEST = 86_400 * SECOND  # of a break: a longer duration is no duration
LONGEST_NAME = 60  # letters of a tag's name that is told
SPLICES = ("SCTE35-CMD", "SCTE35-OUT", "SCTE35-IN")  # attributes of a date range (RFC 8216, 4.3.2.7.1)
# The tags of a segment by which a packager signals, each with the name of its style.
CUES = {
    "#EXT-X-CUE-OUT": "EXT-X-CUE-OUT", "#EXT-X-CUE-OUT-CONT": "EXT-X-CUE-OUT", "#EXT-X-CUE-IN": "EXT-X-CUE-OUT", "#EXT-X-CUE-SPAN": "EXT-X-CUE-OUT",
    "#EXT-OATCLS-SCTE35": "EXT-OATCLS-SCTE35", "#EXT-X-ASSET": "EXT-OATCLS-SCTE35", "#EXT-X-SCTE35": "EXT-X-SCTE35",
    "#EXT-X-SPLICEPOINT-SCTE35": "EXT-X-SPLICEPOINT-SCTE35", "#EXT-X-CUE": "EXT-X-CUE"}
# Words in the names of other tags that say something of breaks, by which a style is known that isn't translated.
WORDS = {"SCTE35", "CUE", "SPLICE", "SPLICEPOINT", "OPPORTUNITY", "MARKER", "SIGNAL", "AVAIL", "BREAK", "AD", "ADS", "BLACKOUT"}


@dataclass(frozen=True)
class Signal:
    """What tags say at one place. The `message` says what of a break; `planned` is the duration that the tag states beside it.
    `is_cue`: the tag itself says that a break begins or ends here, whatever its section is. `elapsed`: the break goes on, and has
    lasted so long; none if it begins or ends here."""

    message: Message
    planned: int | None = None
    is_cue: bool = False
    elapsed: int | None = None

    def is_bare(self) -> bool:
        """Whether a tag says by itself, with no section and no event, that a break begins here."""
        return self.is_cue and self.message.type is None and not self.message.event


@dataclass
class Read:
    """The `signals` that tags say, and why sections of them don't read (`unread`)."""

    signals: list[Signal] = field(default_factory=list)
    unread: list[str] = field(default_factory=list)


@dataclass
class Said:
    """What the tags before one segment say together: the messages of their sections, whether a break begins (`is_out`, with the
    duration `out`) or ends (`is_in`), and how long it has lasted (`elapsed`) if it goes on, with what began it (`within`)."""

    messages: list[Message] = field(default_factory=list)
    is_out: bool = False
    is_in: bool = False
    out: int | None = None
    elapsed: int | None = None
    within: Message | None = None
    event: int = 0
    upid: str = ""


# ---- texts

def pieces_of(text: str) -> list[str]:
    """The parts of the attribute list `text` between its commas, except those within quotes."""
    found: list[list[str]] = [[]]
    for place, part in enumerate(text.split('"')):
        if place % 2:
            found[-1].append(f'"{part}"')
        else:
            first, *rest = part.split(",")
            found[-1].append(first)
            found += [[it] for it in rest]
    return ["".join(it).strip() for it in found]


def said_by(text: str) -> dict[str, str]:
    """The attributes of `text`, the first of each name in capitals, without their quotes; a part without a name has the name ``."""
    found: dict[str, str] = {}
    for piece in pieces_of(text):
        name, equals, value = piece.partition("=")
        if not equals:
            name, value = "", piece
        found.setdefault(name.strip().upper(), value.strip().strip('"'))
    return found


def seconds_of(text: str) -> int | None:
    """The nanoseconds of a number of seconds, of any length of time; none if `text` isn't one."""
    whole = text.partition(".")[0]
    if whole.isascii() and whole.isdigit() and 6 < len(whole) <= 20:  # (more than an EXTINF may say)
        return int(whole) * SECOND
    return packaged.duration_of(text)


@lru_cache(packaged.REMEMBERED)
def duration_of(text: str) -> int | None:
    """The nanoseconds of a duration in seconds (`10.5`), or by ISO 8601 (`PT1M10.5S`); none if `text` is none, or is 0."""
    text = text.strip().strip('"').upper()
    if not text.startswith("PT"):
        return seconds_of(text) or None
    total, rest = 0, text[2:]
    for unit, seconds in (("H", 3600), ("M", 60), ("S", 1)):
        number, sign, after = rest.partition(unit)
        if sign:
            if (found := seconds_of(number)) is None:
                return None
            total, rest = total + found * seconds, after
    return None if rest else total or None


# ---- the tags of a segment

class Cues:
    """The reader of the tags before one segment."""

    def __init__(self) -> None:
        self.said, self.unread = Said(), list[str]()

    def section(self, tag: str, text: str) -> list[Message]:
        """The messages of the section `text` of a `tag`; none if it doesn't read, which is kept in `unread`."""
        try:
            found = splice.read(text.strip().strip('"')).messages
        except Unread as fault:
            self.unread.append(f"{tag}: a section that doesn't read: {fault}")
            return []
        self.said.messages += found
        return found

    def line(self, line: str) -> None:
        """Takes in one of the tags."""
        name, _, rest = line.partition(":")
        tag = name[1:]
        if name in ("#EXT-OATCLS-SCTE35", "#EXT-X-SPLICEPOINT-SCTE35"):
            self.section(tag, rest)
        elif name == "#EXT-X-ASSET":
            self.said.upid = self.said.upid or said_by(rest).get("CAID", "").removeprefix("0x").upper()
        elif name == "#EXT-X-CUE-IN":
            self.said.is_in = True
        elif name == "#EXT-X-CUE-OUT":
            self.cue_out(tag, said_by(rest))
        elif name in ("#EXT-X-CUE-OUT-CONT", "#EXT-X-CUE-SPAN"):
            self.goes_on(said_by(rest))
        elif name == "#EXT-X-SCTE35":
            self.scte35(tag, said_by(rest))
        elif name == "#EXT-X-CUE":
            self.cue(said_by(rest))

    def cue_out(self, tag: str, said: dict[str, str]) -> None:
        """EXT-X-CUE-OUT: a duration by its name or alone, or none, and perhaps a section."""
        self.said.is_out = True
        self.said.out = self.said.out or duration_of(said.get("DURATION", said.get("", "")))
        for it in ("CUE", "SCTE35"):
            if it in said:
                self.section(tag, said[it])

    def goes_on(self, said: dict[str, str]) -> None:
        """EXT-X-CUE-OUT-CONT, EXT-X-CUE-SPAN: the seconds that have passed, and of how many."""
        alone = said.get("", "").split("/")
        self.said.elapsed = duration_of(said.get("ELAPSEDTIME", said.get("ELAPSED", said.get("TIMEFROMSIGNAL", alone[0])))) or 0
        self.said.out = duration_of(said.get("DURATION", alone[1] if len(alone) == 2 else ""))
        try:
            messages = splice.read(said.get("SCTE35", said.get("CUE", ""))).messages
        except Unread:  # (it is told where the break begins)
            messages = [Message(Kind.BEGIN, None, event_of(said.get("ID", "")))]
        self.said.within = next((it for it in messages if it.kind == Kind.BEGIN), None)

    def scte35(self, tag: str, said: dict[str, str]) -> None:
        """EXT-X-SCTE35: a section, the type of its segmentation, and whether a break begins (CUE-OUT=YES), goes on (CONT) or ends
        here (CUE-IN)."""
        if said.get("CUE-OUT", "").upper() == "CONT":
            self.goes_on(said)
            return
        found = self.section(tag, said["CUE"]) if "CUE" in said else []
        if not found and (message := message_of_type(said.get("TYPE", ""), said.get("ID", ""))):
            self.said.messages.append(message)
        if said.get("CUE-OUT", "").upper() == "YES":
            self.said.is_out, self.said.out = True, duration_of(said.get("DURATION", ""))
        elif said.get("CUE-IN", "").upper() == "YES":
            self.said.is_in = True
        elif duration := duration_of(said.get("DURATION", "")):
            self.said.messages = [replace(it, duration=duration) if it.kind == Kind.BEGIN else it for it in self.said.messages]

    def cue(self, said: dict[str, str]) -> None:
        """EXT-X-CUE: TYPE is SpliceOut, with ELAPSED if the break goes on, or SpliceIn."""
        kind = said.get("TYPE", "").casefold()
        if kind == "spliceout" and duration_of(said.get("ELAPSED", "")):
            self.goes_on(said)
        elif kind == "spliceout":
            self.said.is_out, self.said.out = True, duration_of(said.get("DURATION", ""))
            self.said.event = event_of(said.get("ID", ""))
        elif kind == "splicein":
            self.said.is_in = True

    def end(self) -> Read:
        """What all of the tags say together. A tag that says itself that a break begins or ends is right, whatever its section is;
        the section then says which event it is."""
        it, found = self.said, list[Signal]()
        begins = [one for one in it.messages if one.kind == Kind.BEGIN]
        it.messages = without_cancelled(it.messages)
        it.is_out = it.is_out and (not begins or any(one.kind == Kind.BEGIN for one in it.messages))
        found += [Signal(one) for one in it.messages if one.kind == Kind.CANCEL or one.kind == Kind.END and not it.is_in]
        if it.is_in:
            found.append(Signal(Message(Kind.END, None, 0), is_cue=True))
        if it.is_out:
            first = next((one for one in it.messages if one.kind == Kind.BEGIN), Message(Kind.BEGIN, None, it.event))
            found.append(Signal(replace(first, upid=first.upid or it.upid), it.out, is_cue=True))
        elif it.elapsed is not None and not it.is_in:
            found.append(Signal(it.within or Message(Kind.BEGIN, None, 0), it.out, is_cue=True, elapsed=it.elapsed))
        elif not it.is_in:
            found += [Signal(replace(one, upid=one.upid or it.upid)) for one in it.messages if one.kind == Kind.BEGIN]
        found += [Signal(one) for one in it.messages if one.kind == Kind.OTHER and not (it.is_out or it.is_in)]
        return Read(found, self.unread)


def without_cancelled(messages: list[Message]) -> list[Message]:
    """The `messages` before one segment without those that begin an event which a later one of them cancels."""
    found, cancelled = list[Message](), set[int]()
    for it in reversed(messages):
        cancelled |= {it.event} if it.kind == Kind.CANCEL and it.event else set()
        found += [it] if it.kind != Kind.BEGIN or it.event not in cancelled else []
    return found[::-1]


def event_of(text: str) -> int:
    """The event's number `text`; 0, which is no event, if it is none."""
    found = packaged.decimal_of(text)
    return found if found is not None and found < 2**32 else 0


def message_of_type(text: str, event: str) -> Message | None:
    """What the segmentation type `text` (`0x34`) with the number `event` says by itself; none if it is no type."""
    try:
        said = int(text, 16 if text[:2] in ("0x", "0X") else 10) if len(text) < 6 else -1
    except ValueError:
        return None
    if said in splice.SPANS:
        return Message(Kind.BEGIN, said, event_of(event))
    return Message(Kind.END, said - 1, event_of(event)) if said - 1 in splice.SPANS else None


def of_segment(tags: list[str]) -> Read:
    """What the `tags` before a segment say, except its date ranges."""
    reader = Cues()
    for line in tags:
        if line.partition(":")[0] in CUES:
            reader.line(line)
    return reader.end()


# ---- styles

def style_of(line: str) -> str:
    """The name of the style in which the tag `line` signals; empty if it signals nothing."""
    name = line.partition(":")[0]
    if name in CUES:
        return CUES[name]
    if name == "#EXT-X-DATERANGE":
        said = packaged.attributes_of(line.partition(":")[2])
        return next((f"EXT-X-DATERANGE with {it}" for it in SPLICES if it in said), "")
    if name.startswith("#EXT-") and len(name) <= LONGEST_NAME and name.isascii() and name.isprintable() and set(name[5:].split("-")) & WORDS:
        return name[1:]
    return ""


def is_translated(style: str) -> bool:
    """Whether tags of the `style` become breaks."""
    return style.startswith("EXT-X-DATERANGE") or style in CUES.values()
