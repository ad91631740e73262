"""Where a list is read: at a URL, or in a file.

A person's settings state either, and are read here once. What a list names is never read as a setting (`masters.listed`).
"""
from __future__ import annotations

from dataclasses import dataclass
from pathlib import Path

from . import urls, words
from .words import Fault


LONGEST_PATH, LONGEST_NAME = 4000, 255  # bytes of a path, and of each of its parts (path_resolution(7))


@dataclass(frozen=True)
class Url:
    """The web address `text`."""

    text: str

    def __str__(self) -> str:
        """As it is told."""
        return self.text

    def host(self) -> str:
        """Its host, in small letters."""
        return urls.host_of(self.text)


@dataclass(frozen=True)
class LocalFile:
    """The file `path`. One that a list named is `below` the folder of that list, and no link leads to it."""

    path: Path
    below: Path | None = None

    def __str__(self) -> str:
        """As it is told."""
        return str(self.path)


Location = Url | LocalFile


def is_url(text: str) -> bool:
    """Whether the `text` of a setting is meant as a URL."""
    return text.startswith(("http://", "https://"))


def path_in(text: str) -> Path:
    """The path that a person's settings state as `text`; raises Fault if no file can have it."""
    found = text.encode("utf-8", "surrogateescape")
    if b"\0" in found or len(found) > LONGEST_PATH or any(len(it) > LONGEST_NAME for it in found.split(b"/")):
        raise Fault(f"no file has the path {text[:100]!r}: it is too long, or has a sign that none has")
    return Path(text)


def stated(text: str) -> Location:
    """The location that a person's settings state as `text`; raises Fault or ArgumentTypeError if it is a URL that doesn't read, or has a sign
    that isn't printed."""
    if not text.isprintable():
        raise Fault(f"origin has a sign that isn't printed, or a space of another kind: {text!r}")
    if is_url(text):
        words.web_address(text)
        return Url(text)
    return LocalFile(path_in(text))
