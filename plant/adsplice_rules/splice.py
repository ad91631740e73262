"""Splice sections: splice_info_section with its splice_insert (ANSI/SCTE 35, 9.6, 9.7.3 and 9.8)."""
from __future__ import annotations

import re
from dataclasses import dataclass
from functools import lru_cache

from .values import Fault

UNSAID = 0xFFF  # a splice_command_length that isn't stated
INSERT = 5  # splice_insert's splice_command_type


@dataclass(frozen=True)
class Insert:
    """9.7.3: what a splice_insert says of a break: whether it leaves the network (None if it is cancelled), and its
    break_duration's ticks. Its event, whether it is immediate, avail_num and avails_expected mean nothing to adsplice."""

    out_of_network: bool | None = None
    ticks: int | None = None
    event: int = 0
    is_immediate: bool = False
    avail: int = 0
    avails: int = 0


@dataclass(frozen=True)
class SpliceSection:
    """9.6: splice_info_section. `insert` is None for other commands, which are carried as bytes."""

    insert: Insert | None
    descriptors: bytes
    stuffing: bytes
    crc: int


class Bits:
    """Bytes that are read from the left, some bits at a time; S7 if too few are left."""

    def __init__(self, given: bytes) -> None:
        """All of the bytes are still to be read."""
        self.given, self.place, self.whole = given, 0, int.from_bytes(given, "big")

    def take(self, count: int) -> int:
        """The number in the next bits."""
        if self.place + count > 8 * len(self.given):
            raise Fault("S7")
        number = self.whole >> (8 * len(self.given) - self.place - count)
        self.place += count
        return number & ((1 << count) - 1)

    def rest(self) -> bytes:
        """The bytes that are left."""
        return self.given[self.place // 8:]


def splice_time(bits: Bits) -> None:
    """9.8.1: time_specified_flag, reserved bits, and pts_time if it is specified, which no break uses (CONFORMANCE)."""
    bits.take(39 if bits.take(1) else 7)


def break_duration(bits: Bits) -> int:
    """9.8.2: auto_return and reserved bits, and then the duration in ticks of 90 kHz."""
    bits.take(7)
    return bits.take(33)


def splice_insert(bits: Bits) -> Insert:
    """9.7.3: splice_event_id, a flag that cancels it, and what it says else: its flags, the time of the program or of each
    component unless it is immediate, its duration, three numbers. Reserved bits are read whatever they are (CONFORMANCE)."""
    event, cancelled, _ = bits.take(32), bits.take(1), bits.take(7)
    if cancelled:
        return Insert(event=event)
    out, program, has_duration, immediate, _ = bits.take(1), bits.take(1), bits.take(1), bits.take(1), bits.take(4)
    for _ in range(1 if program else bits.take(8)):
        if not program:
            bits.take(8)
        if not immediate:
            splice_time(bits)
    ticks = break_duration(bits) if has_duration else None
    bits.take(16)
    return Insert(out == 1, ticks, event, immediate == 1, bits.take(8), bits.take(8))


def command_at(given: bytes, length: int, kind: int) -> tuple[Insert | None, bytes]:
    """9.6: the command of this splice_command_length, and the bytes after it. A splice_insert takes exactly its length, or
    says by its fields where it ends if the length isn't stated, which is for it alone (CONFORMANCE)."""
    if length == UNSAID:
        if kind != INSERT:
            raise Fault("S7")
        bits = Bits(given)
        return splice_insert(bits), bits.rest()
    if len(given) < length:
        raise Fault("S7")
    if kind != INSERT:
        return None, given[length:]
    bits = Bits(given[:length])
    insert = splice_insert(bits)
    if bits.rest():
        raise Fault("S7")
    return insert, given[length:]


def first_fault(given: bytes) -> str | None:
    """9.6: the first fault of a section's beginning, in the order S2 to S6."""
    if len(given) < 20:
        return "S2"
    if given[0] != 0xFC:
        return "S3"
    if int.from_bytes(given[1:3], "big") % 2**12 + 3 != len(given):
        return "S4"
    if given[3] != 0:
        return "S5"
    return "S6" if given[4] >= 0x80 else None


def section_of(given: bytes) -> SpliceSection:
    """9.6: what the bytes of a section say; S2 to S7 if they are none. CRC_32 is kept, and not verified (CONFORMANCE)."""
    if fault := first_fault(given):
        raise Fault(fault)
    insert, after = command_at(given[14:], int.from_bytes(given[11:13], "big") % 2**12, given[13])
    size = Bits(after).take(16)
    if len(after) < 2 + size + 4:
        raise Fault("S7")
    descriptors, stuffing, crc = after[2:2 + size], after[2 + size:-4], int.from_bytes(after[-4:], "big")
    return SpliceSection(insert, descriptors, stuffing, crc)


def hexadecimal_section(text: str) -> SpliceSection:
    """RFC 8216, 4.3.2.7.1: a section in hexadecimal digits after 0x; S1 if it isn't that."""
    if not re.fullmatch(r"0[xX](?:[0-9A-Fa-f]{2})*", text):
        raise Fault("S1")
    return section_of(bytes.fromhex(text[2:]))


def crc_of(given: bytes) -> int:
    """9.6: CRC_32 (ISO/IEC 13818-1, Annex A): of a whole section with its own it is 0."""
    rest = 2**32 - 1
    for byte in given:
        rest ^= byte << 24
        for _ in range(8):
            rest = (rest << 1) ^ (0x104C11DB7 if rest >> 31 else 0)
    return rest


@lru_cache(256)
def insert_said(text: str | None) -> Insert | None:
    """9.7.3: the splice_insert of a section, unless that doesn't read, has another command, or is cancelled."""
    try:
        insert = hexadecimal_section(text).insert if text is not None else None
    except Fault:
        return None
    return insert if insert is not None and insert.out_of_network is not None else None


def ticks_nanos(ticks: int) -> int:
    """9.8.2: ticks of 90 kHz in nanoseconds, rounded down."""
    return ticks * 100_000 // 9
