"""What a reference names under a base: RFC 3986, 5, as the URL Standard (url.spec.whatwg.org) has it, whose sections are cited.

Not in this model: hosts that aren't ASCII, or are numbers but no four decimals; references of a space and then another scheme
than http and https. `NotModelled` tells of them.
"""
from __future__ import annotations

import re
from dataclasses import dataclass, replace
from ipaddress import IPv6Address
from urllib.parse import unquote_to_bytes

from .lines import has_control
from .values import Fault, NotModelled

PORTS = {"http": 80, "https": 443}
SCHEME = re.compile(r"([A-Za-z][A-Za-z0-9+.-]*):")
NUMBER = re.compile(r"(?:.*\.)?(?:[0-9]+|0[xX][0-9A-Fa-f]*)\.?")
IN_FRAGMENT = ' "<>`'  # 1.3: what each part escapes, besides controls and all that isn't ASCII
IN_PATH = IN_FRAGMENT + "#?^{}"
IN_USER = IN_PATH + "/:;=@[\\]|"
IN_QUERY = " \"#<>'"
NOT_IN_HOST = set("\0\t\n\r #/:<>?@[\\]^|%\x7f") | set(map(chr, range(0x20)))


@dataclass(frozen=True)
class Url:
    """4.1: a URL of the schemes http and https: the text of its authority, its path, its query and its fragment."""

    scheme: str
    authority: str
    path: str
    query: str | None = None
    fragment: str | None = None

    def text(self) -> str:
        """4.5: the URL serializer."""
        query = "" if self.query is None else f"?{self.query}"
        fragment = "" if self.fragment is None else f"#{self.fragment}"
        return f"{self.scheme}://{self.authority}{self.path}{query}{fragment}"


def escaped(text: str, also: str) -> str:
    """1.3: percent-encodes controls, what isn't ASCII, and these characters."""
    return "".join(chr(b) if 0x20 <= b < 0x7F and chr(b) not in also else f"%{b:02X}" for b in text.encode())


def ipv6_of(text: str) -> str:
    """3.5: an IPv6 address between brackets."""
    try:
        if not text.endswith("]") or "%" in text:
            raise ValueError
        return f"[{IPv6Address(text[1:-1]).compressed}]"
    except ValueError:
        raise Fault("P16") from None


def host_of(text: str) -> str:
    """3.5: the host parser: an address in brackets, or a domain, which is unescaped and put in lower case."""
    if text.startswith("["):
        return ipv6_of(text)
    domain = unquote_to_bytes(text).decode("latin-1").lower()
    if not domain.isascii():
        raise NotModelled(f"a host that isn't ASCII: {text}")
    if domain == "" or set(domain) & NOT_IN_HOST:
        raise Fault("P16")
    if NUMBER.fullmatch(domain):
        if not re.fullmatch(r"(?:0|[1-9][0-9]*)(?:\.(?:0|[1-9][0-9]*)){3}", domain):
            raise NotModelled(f"a host of numbers: {text}")
        if any(int(part) > 255 for part in domain.split(".")):
            raise Fault("P16")
    return domain


def authority_of(scheme: str, text: str) -> str:
    """4.4, authority state: user, password, host and port, which goes unsaid if it is the scheme's own."""
    userinfo, _, address = text.rpartition("@")
    user, _, password = userinfo.partition(":")
    inside, bracket, outside = address.rpartition("]") if address.startswith("[") else ("", "", address)
    host, _, port = outside.partition(":")
    if port and (not re.fullmatch(r"[0-9]+", port) or int(port) >= 2**16):
        raise Fault("P16")
    password = f":{escaped(password, IN_USER)}" if password else ""
    front = f"{escaped(user, IN_USER)}{password}@" if user or password else ""
    back = "" if port == "" or int(port) == PORTS[scheme] else f":{int(port)}"
    return front + host_of(inside + bracket + host) + back


def path_after(before: str, text: str) -> str:
    """4.4, path state: each segment after a slash; `.` and `..` are taken away."""
    path, segments = before, re.split(r"[/\\]", text)
    for place, segment in enumerate(segments):
        dots = re.sub("%2e", ".", segment, flags=re.IGNORECASE)
        last = "/" if place == len(segments) - 1 else ""
        if dots in (".", ".."):
            path = (path.rpartition("/")[0] if dots == ".." else path) + last
        else:
            path = f"{path}/{escaped(segment, IN_PATH)}"
    return path


def joined(scheme: str, base: Url | None, body: str) -> Url:
    """4.4: what stands before query and fragment: after two slashes a new authority and path, after one a path from the root, else
    one that takes the place of the base's last segment; nothing at all is the base."""
    slashes = len(body) - len(body.lstrip("/\\"))
    if base is None or slashes >= 2:
        authority = re.split(r"[/\\]", body.lstrip("/\\"))[0]
        path = body.lstrip("/\\")[len(authority):]
        return Url(scheme, authority_of(scheme, authority), path_after("", path[1:]))
    if body == "":
        return base
    return Url(scheme, base.authority, path_after("" if slashes else base.path.rpartition("/")[0], body[slashes:]))


def trimmed(text: str) -> str:
    """4.4: without controls and spaces at both ends, and without tabs and line ends."""
    return re.sub(r"[\t\n\r]", "", text.strip("".join(map(chr, range(0x21)))))


def parsed(text: str, base: Url | None) -> Url:
    """4.4, the URL parser: the URL of a text under a base; P16 if there is none."""
    front, hash_sign, fragment = trimmed(text).partition("#")
    body, question, query = front.partition("?")
    found = SCHEME.match(body)
    scheme = found[1].lower() if found else base.scheme if base else ""
    if scheme not in PORTS:
        raise NotModelled(f"the scheme of {text}")
    same = base if base is not None and base.scheme == scheme else None
    url = joined(scheme, same, body[found.end():] if found else body)
    return replace(url, query=escaped(query, IN_QUERY) if question else url.query,
                   fragment=escaped(fragment, IN_FRAGMENT) if hash_sign else None)


def has_scheme(text: str) -> bool:
    """RFC 3986, 3.1: a letter, then letters, digits, `+`, `-` and `.`, then a colon."""
    return SCHEME.match(text) is not None


def base_of(text: str) -> Url:
    """CONFORMANCE, 4.1: the base is an absolute http or https URL; C1 else."""
    found = SCHEME.match(trimmed(text))
    if found is None or found[1].lower() not in PORTS:
        raise Fault("C1")
    try:
        return parsed(text, None)
    except Fault:
        raise Fault("C1") from None


def resolved(base: Url, reference: str) -> str:
    """RFC 8216, 4.1: a reference with a scheme stands as it is, and any other is joined to the base. P16 if it can't be, or
    if the join couldn't be written between quotes on a line (CONFORMANCE)."""
    if has_scheme(reference):
        return reference
    text = parsed(reference, base).text()
    if has_control(text) or '"' in text:
        raise Fault("P16")
    return text
