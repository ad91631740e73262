"""Splice sections (ANSI/SCTE 35): what they say of breaks, and the same in words.

adsplice takes splice_insert alone, and how a section and its splice_insert read is said in adsplice_rules.splice. Read here
besides is what packagers write: time_signal with its segmentation descriptors, and sections in base64."""
from __future__ import annotations

import base64
import binascii
from dataclasses import dataclass
from enum import IntEnum
from functools import lru_cache

from adsplice_rules.splice import INSERT, UNSAID, Bits, Insert, crc_of, first_fault, splice_insert, splice_time, ticks_nanos
from adsplice_rules.values import Fault

from . import playlist

COMMANDS = {0: "splice_null", 4: "splice_schedule", 5: "splice_insert", 6: "time_signal", 7: "bandwidth_reservation", 255: "private_command"}
TIME_SIGNAL = 6
SEGMENTATION = 2  # the splice_descriptor_tag of a segmentation_descriptor
CUEI = 0x43554549  # the identifier of the standard's own descriptors
MOST_BYTES = 4098  # of a section: its section_length has 12 bits

# segmentation_type_id and its name (ANSI/SCTE 35, 10.3.3.1).
TYPES = {
    0x00: "Not Indicated", 0x01: "Content Identification", 0x02: "Private",
    0x10: "Program Start", 0x11: "Program End", 0x12: "Program Early Termination", 0x13: "Program Breakaway", 0x14: "Program Resumption",
    0x15: "Program Runover Planned", 0x16: "Program Runover Unplanned", 0x17: "Program Overlap Start", 0x18: "Program Blackout Override",
    0x19: "Program Join", 0x1A: "Program Immediate Resumption", 0x20: "Chapter Start", 0x21: "Chapter End", 0x22: "Break Start", 0x23: "Break End",
    0x24: "Opening Credit Start", 0x25: "Opening Credit End", 0x26: "Closing Credit Start", 0x27: "Closing Credit End",
    0x30: "Provider Advertisement Start", 0x31: "Provider Advertisement End", 0x32: "Distributor Advertisement Start",
    0x33: "Distributor Advertisement End", 0x34: "Provider Placement Opportunity Start", 0x35: "Provider Placement Opportunity End",
    0x36: "Distributor Placement Opportunity Start", 0x37: "Distributor Placement Opportunity End",
    0x38: "Provider Overlay Placement Opportunity Start", 0x39: "Provider Overlay Placement Opportunity End",
    0x3A: "Distributor Overlay Placement Opportunity Start", 0x3B: "Distributor Overlay Placement Opportunity End",
    0x3C: "Provider Promo Start", 0x3D: "Provider Promo End", 0x3E: "Distributor Promo Start", 0x3F: "Distributor Promo End",
    0x40: "Unscheduled Event Start", 0x41: "Unscheduled Event End", 0x42: "Alternate Content Opportunity Start",
    0x43: "Alternate Content Opportunity End", 0x44: "Provider Ad Block Start", 0x45: "Provider Ad Block End",
    0x46: "Distributor Ad Block Start", 0x47: "Distributor Ad Block End", 0x50: "Network Start", 0x51: "Network End"}
# The types that begin a span for advertisements, an outer one before those that may be within it; each span ends by the next type.
# An overlay (0x38, 0x3A) covers the programme, and replaces none of it.
SPANS = (0x22, 0x34, 0x36, 0x44, 0x46, 0x30, 0x32, 0x3C, 0x3E)
PROMOS = (0x3C, 0x3E)  # begin a break only if the settings name them


class Unread(Exception):
    """A section that doesn't read; its text says why."""


class Kind(IntEnum):
    """What a message says of a break. Of the messages of one section the smaller kind comes first."""

    CANCEL = 0
    END = 1
    BEGIN = 2
    OTHER = 3  # nothing of a break


@dataclass(frozen=True)
class Message:
    """What a section says at one place: its `kind`; the `type` of the span that it begins, ends or speaks of (none for a
    splice_insert, and for a cancelled descriptor, which doesn't say); the `event`; the `duration` in nanoseconds, if it states
    one that isn't 0; the segmentation_upid in hexadecimal digits; and which one it is (`part`) of how many (`parts`), as avail_num and
    avails_expected, or segment_num and segments_expected say it: 0 if they don't."""

    kind: Kind
    type: int | None
    event: int
    duration: int | None = None
    upid: str = ""
    part: int = 0
    parts: int = 0

    def name(self) -> str:
        """The name of what it says, by the standard."""
        if self.type is None:
            return "splice_insert"
        said = self.type + (self.kind == Kind.END)
        return TYPES.get(said, f"segmentation type 0x{said:02X}")


@dataclass(frozen=True)
class Section:
    """A section: the type of its command, its splice_insert if it has one, and its messages in the order in which they count."""

    command: int
    insert: Insert | None
    messages: list[Message]

    def name(self) -> str:
        """The command's name."""
        return COMMANDS.get(self.command, f"command of type {self.command}")


# ---- reading

def hexadecimal_bytes(text: str) -> bytes:
    """The bytes of the hexadecimal text `text`, as adsplice takes it; raises Unread."""
    if not text.startswith(("0x", "0X")):
        raise Unread("no hexadecimal text: it has to begin with 0x")
    digits = text[2:]
    if len(digits) % 2:
        raise Unread(f"no hexadecimal text: its {len(digits)} digits are an odd number")
    if not set(digits) <= set("0123456789abcdefABCDEF"):
        raise Unread("no hexadecimal text: it holds what is no digit")
    return bytes.fromhex(digits)


def bytes_of(text: str) -> bytes:
    """The bytes of the hexadecimal or base64 text `text`, in either alphabet (RFC 4648, 4 and 5); raises Unread."""
    if len(text) > 2 * MOST_BYTES + 2:
        raise Unread(f"a text of {len(text)} letters, and a section has at most {MOST_BYTES} bytes")
    if text.startswith(("0x", "0X")):
        return hexadecimal_bytes(text)
    try:
        return base64.b64decode(text.replace("-", "+").replace("_", "/") + "=" * (-len(text) % 4), validate=True)
    except (binascii.Error, ValueError):
        raise Unread("it is neither hexadecimal after 0x nor base64") from None


def section_of(data: bytes) -> Section:
    """What the section `data` says; raises Unread. Its CRC_32 isn't verified, as adsplice doesn't."""
    if fault := first_fault(data):
        raise Unread(reason(fault, data))
    bits = Bits(data[13:])
    length, command = int.from_bytes(data[11:13], "big") % 2**12, bits.take(8)
    try:
        insert = command_of(bits, length, command)
        descriptors = Bits(data[13 + bits.place // 8:-4])
        size = descriptors.take(16)
        loop = descriptors.rest()
    except Fault:
        raise Unread("it ends within its fields") from None
    if size > len(loop):
        raise Unread(f"its descriptors have {size} bytes, and {len(loop)} are left")
    found = [] if insert is None else [message_of_insert(insert)]
    found += descriptor_messages(loop[:size]) if command == TIME_SIGNAL else []
    return Section(command, insert, sorted(found, key=lambda it: (it.kind, SPANS.index(it.type) if it.kind == Kind.BEGIN and it.type else 0)))


def command_of(bits: Bits, length: int, command: int) -> Insert | None:
    """Passes over the command of type `command` and of `length` bytes that `bits` stand before; its splice_insert, if it is one.
    A length that isn't stated is known by the fields of a splice_insert and of a time_signal. Raises Fault and Unread."""
    begun = bits.place
    insert = splice_insert(bits) if command == INSERT else None
    if command == TIME_SIGNAL and length == UNSAID:
        splice_time(bits)
    if length == UNSAID:
        if command not in (INSERT, TIME_SIGNAL):
            raise Unread(f"its {COMMANDS.get(command, 'command')} has no stated length")
        return insert
    if insert is not None and bits.place - begun != 8 * length:
        raise Unread(f"its splice_command_length says {length} bytes, and the splice_insert has {(bits.place - begun) // 8}")
    bits.place = begun + 8 * length
    return insert


def reason(fault: str, data: bytes) -> str:
    """Why the section `data` has the fault of the code `fault`, which is one of S2 to S6."""
    if fault == "S2":
        return f"it has {len(data)} bytes, and a section has at least 20"
    if fault == "S3":
        return f"its table_id is 0x{data[0]:02X} and not 0xFC"
    if fault == "S4":
        return f"its section_length says {int.from_bytes(data[1:3], 'big') % 2**12} bytes after it, and there are {len(data) - 3}"
    if fault == "S5":
        return f"its protocol_version is {data[3]} and not 0"
    return "it is encrypted (encrypted_packet is 1)"


def message_of_insert(insert: Insert) -> Message:
    """What a splice_insert says."""
    if insert.out_of_network is None:
        return Message(Kind.CANCEL, None, insert.event)
    duration = ticks_nanos(insert.ticks) if insert.ticks else None
    return Message(Kind.BEGIN if insert.out_of_network else Kind.END, None, insert.event, duration if insert.out_of_network else None, "", insert.avail, insert.avails)


def descriptor_messages(loop: bytes) -> list[Message]:
    """What the segmentation descriptors of the descriptor `loop` of a time_signal say, in their order; raises Unread."""
    found, place = [], 0
    while place + 2 <= len(loop):
        tag, length = loop[place], loop[place + 1]
        fields = loop[place + 2:place + 2 + length]
        if len(fields) < length:
            raise Unread("it ends within a descriptor")
        if tag == SEGMENTATION and int.from_bytes(fields[:4], "big") == CUEI and length >= 4:
            try:
                found.append(segmentation(Bits(fields[4:])))
            except Fault:
                raise Unread("a segmentation descriptor ends within its fields") from None
        place += 2 + length
    return found


def segmentation(bits: Bits) -> Message:
    """What the segmentation_descriptor says whose fields after the identifier are `bits`; raises Fault (10.3.3)."""
    event, is_cancelled, _ = bits.take(32), bits.take(1), bits.take(7)
    if is_cancelled:
        return Message(Kind.CANCEL, None, event)
    is_whole, has_duration, _ = bits.take(1), bits.take(1), bits.take(6)
    for _ in range(0 if is_whole else bits.take(8)):
        bits.take(48)
    duration = ticks_nanos(bits.take(40)) if has_duration else 0
    bits.take(8)
    upid = b"".join(bytes([bits.take(8)]) for _ in range(bits.take(8))).hex().upper()
    type_, part, parts = bits.take(8), bits.take(8), bits.take(8)
    if type_ in SPANS:
        return Message(Kind.BEGIN, type_, event, duration or None, upid, part, parts)
    return Message(Kind.END, type_ - 1, event, None, upid) if type_ - 1 in SPANS else Message(Kind.OTHER, type_, event, None, upid)


def read(text: str) -> Section:
    """What the section of the hexadecimal or base64 text `text` says; raises Unread."""
    return section_of(bytes_of(text))


# ---- in words

def told(text: str) -> str:
    """What the section of the attribute value `text` is, in words."""
    try:
        data = hexadecimal_bytes(text)
    except Unread as fault:
        return str(fault)
    try:
        found = section_of(data)
    except Unread as fault:
        return f"a section that doesn't read: {fault}"
    if found.insert is None:
        return f"a section with a {found.name()}{segmentation_words(found)}; adsplice takes splice_insert alone"
    return insert_words(found.insert)


def segmentation_words(section: Section) -> str:
    """What the first segmentation descriptor of `section` says, in words; empty if it has none."""
    if not section.messages:
        return ""
    it = section.messages[0]
    return f" (segmentation event {it.event}, {'cancelled' if it.kind == Kind.CANCEL else it.name()})"


def insert_words(insert: Insert) -> str:
    """A splice_insert in words."""
    if insert.out_of_network is None:
        return f"a splice_insert that is cancelled (event {insert.event})"
    details = [f"event {insert.event}"] + ["immediate"] * insert.is_immediate
    if insert.ticks is not None:
        details.append(f"{playlist.seconds_text(ticks_nanos(insert.ticks))} s")
    return f"a splice_insert that {'leaves' if insert.out_of_network else 'returns to'} the network ({', '.join(details)})"


# ---- writing

@lru_cache(1024)
def insert_text(event: int, duration: int | None) -> str:
    """A section in hexadecimal digits with a splice_insert of the `event` that leaves the network at once, and lasts for `duration`
    nanoseconds if that is known (9.6, 9.7.3). Its CRC_32 is right."""
    stated = b"" if duration is None else (0xFE << 32 | min(duration * 9 // 100_000, 2**33 - 1)).to_bytes(5, "big")
    command = event.to_bytes(4, "big") + bytes([0x7F, 0xFF if stated else 0xDF]) + stated + bytes(4)
    body = bytes([0, 0, 0, 0, 0, 0, 0, 0xFF]) + (0xF000 | len(command)).to_bytes(2, "big") + bytes([INSERT]) + command + bytes(2)
    head = bytes([0xFC]) + (0x3000 | len(body) + 4).to_bytes(2, "big") + body
    return f"0x{(head + crc_of(head).to_bytes(4, 'big')).hex().upper()}"
