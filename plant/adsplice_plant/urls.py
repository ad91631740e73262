"""URLs and references as texts (RFC 3986). urllib raises at some of them, and a text from outside may be any: so every text goes through here.

`web.url_of` reads a URL as a request needs it; that takes a library, which not all programs have.
"""
from __future__ import annotations

import urllib.parse
from dataclasses import dataclass


@dataclass(frozen=True)
class Parts:
    """The parts of a URL, or of a reference; those that it doesn't state are empty. `port` is None if none is stated, or if the stated one isn't from
    0 to 65535 (`is_port_wrong`). The `host` is in small letters."""

    scheme: str
    host: str
    port: int | None
    is_port_wrong: bool
    path: str
    query: str
    fragment: str
    user: str
    password: str


def parts_of(text: str) -> Parts | None:
    """The parts of the URL or reference `text`; None if it doesn't read."""
    try:
        it = urllib.parse.urlsplit(text)
        host = (it.hostname or "").lower()
    except ValueError:
        return None
    try:
        port, is_wrong = it.port, False
    except ValueError:
        port, is_wrong = None, True
    return Parts(it.scheme, host, port, is_wrong, it.path, it.query, it.fragment, it.username or "", it.password or "")


def host_of(text: str) -> str:
    """The host of the URL `text`, in small letters; empty if it has none, or doesn't read."""
    parts = parts_of(text)
    return parts.host if parts is not None else ""


def joined(base: str, reference: str) -> str | None:
    """The `reference` as a URL by its `base` (RFC 3986, 5); None if one of both doesn't read."""
    try:
        return urllib.parse.urljoin(base, reference)
    except ValueError:
        return None


def joined_or_same(base: str, reference: str) -> str:
    """The `reference` as a URL by its `base`; as it is if one of both doesn't read. (adsplice then refuses the list that has it.)"""
    found = joined(base, reference)
    return reference if found is None else found


def without_user(text: str) -> str | None:
    """The URL `text` without `user:password@`; None if it doesn't read."""
    try:
        it = urllib.parse.urlsplit(text)
        return urllib.parse.urlunsplit(it._replace(netloc=it.netloc.rpartition("@")[2]))
    except ValueError:
        return None
