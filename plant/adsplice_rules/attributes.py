"""Attribute lists and the numbers in them (RFC 8216, 4.2)."""
from __future__ import annotations

from collections.abc import Iterator
from dataclasses import dataclass

from .values import PAST, Fault, or_fault

MOST_ATTRIBUTES = 64  # a limit of the reader (CONFORMANCE, 4.2)
DIGITS = set("0123456789")
NAME = set("ABCDEFGHIJKLMNOPQRSTUVWXYZ0123456789-")


@dataclass(frozen=True)
class Attribute:
    """A name and its value, without the quotes around it."""

    name: str
    value: str
    quoted: bool

    def text(self) -> str:
        """As it stands in a list."""
        return f'{self.name}="{self.value}"' if self.quoted else f"{self.name}={self.value}"


def pieces_of(text: str) -> Iterator[str]:
    """4.2: the text cut at each comma that isn't between quotes, a piece at a time."""
    parts: list[str] = []
    quotes = 0
    for part in text.split(","):
        parts.append(part)
        quotes += part.count('"')
        if quotes % 2 == 0:
            yield ",".join(parts)
            parts = []
    if parts:
        yield ",".join(parts)


def is_name(text: str) -> bool:
    """4.2: one or more of A to Z, 0 to 9 and the hyphen."""
    return text != "" and set(text) <= NAME


def quoted_value(value: str) -> str | None:
    """4.2: what stands between a quote at the front and one at the end, if there is no other quote."""
    inner = value[1:-1]
    return inner if len(value) >= 2 and value[0] == value[-1] == '"' and '"' not in inner else None


def is_plain_value(value: str) -> bool:
    """4.2: an unquoted value isn't empty and has no comma, quote or space (U+0020 alone, CONFORMANCE)."""
    return value != "" and not set(value) & set(', "')


def attributes_of(text: str) -> list[Attribute]:
    """4.2: NAME=VALUE joined by commas, no name twice, at most 64 (CONFORMANCE). Every fault is P11."""
    found: list[Attribute] = []
    for piece in pieces_of(text):
        name, equals, value = piece.partition("=")
        quoted = value.startswith('"')
        inner = quoted_value(value) if quoted else value if is_plain_value(value) else None
        if not equals or not is_name(name) or inner is None or named(found, name) or len(found) == MOST_ATTRIBUTES:
            raise Fault("P11")
        found.append(Attribute(name, inner, quoted))
    return found


def named(found: list[Attribute], name: str) -> Attribute | None:
    """The attribute of this name, if there is one."""
    return next((one for one in found if one.name == name), None)


def value_as(quoted: bool, one: Attribute) -> str:
    """4.2: the value of an attribute that has to be in quotes, or has to be without; P11 else."""
    if one.quoted != quoted:
        raise Fault("P11")
    return one.value


def required(found: list[Attribute], name: str, quoted: bool) -> str:
    """4.3: the value of an attribute that has to be there; P12 if it isn't."""
    return value_as(quoted, or_fault(named(found, name), "P12"))


def decimal_of(text: str) -> int | None:
    """4.2: a decimal-integer, 1 to 20 digits and below 2^64."""
    if not 1 <= len(text) <= 20 or not set(text) <= DIGITS or int(text) >= PAST:
        return None
    return int(text)


def hexadecimal_of(text: str) -> int | None:
    """4.2: a hexadecimal-sequence of 1 to 32 digits, a to f too (CONFORMANCE)."""
    digits = text[2:]
    if text[:2] not in ("0x", "0X") or not 1 <= len(digits) <= 32 or not set(digits) <= set("0123456789abcdefABCDEF"):
        return None
    return int(digits, 16)


def byte_range_of(text: str) -> tuple[int, int | None]:
    """4.3.2.2: `n[@o]`, the length and the offset if it is stated; P13 if it isn't one or ends past 2^64 - 1."""
    length, at, offset = text.partition("@")
    numbers = decimal_of(length), decimal_of(offset) if at else 0
    if numbers[0] is None or numbers[1] is None or numbers[0] + numbers[1] >= PAST:
        raise Fault("P13")
    return numbers[0], numbers[1] if at else None
