"""Requests and replies of `adsplice live` (RFC 9110 and 9112), one connection after the other."""
from __future__ import annotations

import re
from dataclasses import dataclass, field

from .attributes import decimal_of
from .channel import MOST_TOLERANCE, TOLERANCE, Channel, decide, refreshed, words, written
from .decisions import is_text, json_of, member
from .times import duration_of
from .uris import base_of
from .values import Fault

MOST_HEAD = 16_384
MOST_FIELDS = 64
MOST_BODY = 4_194_304
MOST_CHANNELS = 64
REASONS = {200: "OK", 201: "Created", 204: "No Content", 400: "Bad Request", 404: "Not Found", 405: "Method Not Allowed",
           409: "Conflict", 411: "Length Required", 413: "Payload Too Large", 422: "Unprocessable Entity",
           503: "Service Unavailable"}
PLAIN, PLAYLIST = "text/plain; charset=utf-8", "application/vnd.apple.mpegurl"

TOKEN = rb"[0-9A-Za-z!#$%&'*+\-.^_`|~]+"
TARGET = rb"[\x21-\x7e\x80-\xff]+"
BEGIN = rb"(?:\r?\n)*(" + TOKEN + rb") (" + TARGET + rb")"
FIELD = TOKEN + rb":[\t\x20-\x7e\x80-\xff]*\r?\n"
FRONT = BEGIN + rb" HTTP/1\.[01]\r?\n((?:" + FIELD + rb")*)"
HEAD = re.compile(FRONT + rb"\r?\n")
SHORTEST = b"\nX / HTTP/1.1\r\nX:\r\n\r\n"  # some end of it makes a head of whatever may become one


@dataclass(frozen=True)
class Request:
    """A whole request."""

    method: str
    target: str
    body: bytes


@dataclass(frozen=True)
class Reply:
    """A reply: its status, its body, the body's type, and the methods that 405 allows."""

    status: int
    body: str = ""
    media: str = PLAIN
    allow: str = ""


class Refused(Exception):
    """A request that is answered before it is looked at."""

    def __init__(self, status: int, body: str) -> None:
        """Makes the refusal of this status and body."""
        super().__init__(body)
        self.reply = Reply(status, body)


class Unfinished(Exception):
    """Bytes of which a request may still come."""


# ---- requests

def is_text_of_utf8(target: bytes) -> bool:
    """A target is UTF-8."""
    try:
        target.decode()
    except UnicodeDecodeError:
        return False
    return True


def head_of(given: bytes) -> re.Match[bytes]:
    """9112, 2.1 to 5: the head at the front: empty lines, the request line, fields, an empty line, in at most 16,384 bytes and 64
    fields. A line may end with LF alone."""
    found = HEAD.match(given[:MOST_HEAD])
    if found and is_text_of_utf8(found[2]) and found[3].count(b"\n") <= MOST_FIELDS:
        return found
    if found or len(given) >= MOST_HEAD or not may_become_head(given):
        raise Refused(400, "bad request\n")
    raise Unfinished


def may_become_head(given: bytes) -> bool:
    """9112, 2.1: some bytes can follow that make a head of these, or they end inside a target, which is judged at its end. With
    65 whole fields they make none (docs/operating/faults.md, 400)."""
    front = re.match(FRONT, given)
    if front and front[3].count(b"\n") > MOST_FIELDS:
        return False
    heads = [HEAD.fullmatch(given + SHORTEST[place:]) for place in range(len(SHORTEST))]
    return any(head and is_text_of_utf8(head[2]) for head in heads) or re.fullmatch(BEGIN, given) is not None


def values_named(fields: bytes, name: str) -> list[str]:
    """9110, 5.1: the values of the fields of a name, whose case doesn't count, without the white space around them."""
    pairs = [line.rstrip(b"\r").partition(b":") for line in fields.split(b"\n")[:-1]]
    return [value.strip(b" \t").decode("latin-1") for field, _, value in pairs if field.decode("latin-1").lower() == name]


def body_of_length(stated: str) -> int:
    """9112, 6.3: a decimal (400), of at most 4,194,304 bytes (413, 9110, 15.5.14)."""
    length = decimal_of(stated)
    if length is None:
        raise Refused(400, "bad request\n")
    if length > MOST_BODY:
        raise Refused(413, "too large\n")
    return length


def body_length(method: str, fields: bytes) -> int:
    """9112, 6.1, 6.3: a PUT has no transfer coding and one Content-Length (411; two are 400); of other methods no body is read
    (CONFORMANCE)."""
    if method != "PUT":
        return 0
    lengths = values_named(fields, "content-length")
    if values_named(fields, "transfer-encoding") or not lengths:
        raise Refused(411, "length required\n")
    if len(lengths) > 1:
        raise Refused(400, "bad request\n")
    return body_of_length(lengths[0])


def request_of(given: bytes) -> Request:
    """9112: the request at the front of these bytes; what follows it is passed over."""
    head = head_of(given)
    method = head[1].decode()
    length, rest = body_length(method, head[3]), given[head.end():]
    if len(rest) < length:
        raise Unfinished
    return Request(method, head[2].decode(), rest[:length])


# ---- replies

def refused(fault: Fault) -> Reply:
    """9110, 15.5.10 and 15.5.21: 409 if it contradicts what was given before, 422 if it doesn't read."""
    contradicts = fault.code.startswith("N") or fault.code in ("J9", "J10", "J11")
    return Reply(409 if contradicts else 422, f"{fault}\n")


def reply_text(reply: Reply, method: str) -> bytes:
    """9112, 4: the status line, the fields and the body. HEAD gets no body (9110, 9.3.2), 204 states no length (9110, 8.6), and
    each reply closes its connection (9112, 9.3)."""
    body = reply.body.encode()
    lines = [f"HTTP/1.1 {reply.status} {REASONS[reply.status]}"]
    lines += [f"Content-Type: {reply.media}"] if body else []
    lines += [f"Allow: {reply.allow}"] if reply.allow else []
    lines += [f"Content-Length: {len(body)}"] if reply.status != 204 else []
    head = "".join(f"{line}\r\n" for line in [*lines, "Connection: close", ""])
    return head.encode() + (b"" if method == "HEAD" else body)


def route_of(target: str) -> tuple[str, str] | None:
    """9110, 15.5.5: the channel's name and what of it a path names: `/channels/NAME` and what may follow, nothing decoded."""
    found = re.fullmatch(r"/channels/([a-z0-9-]{1,32})(|/origin|/decisions|/live\.m3u8|/why)", target.partition("?")[0])
    return (found[1], found[2]) if found else None


METHODS = {"": "PUT, DELETE", "/origin": "PUT", "/decisions": "PUT", "/live.m3u8": "GET", "/why": "GET"}


@dataclass
class Edge:
    """The channels by their names, in the order in which they were made."""

    channels: dict[str, Channel] = field(default_factory=dict)

    def make(self, name: str, body: bytes) -> Reply:
        """A channel of this body: J1, J2, C1, C2; 409 if there is one; 503 if there are 64 (9110, 15.6.4)."""
        value = json_of(body)
        base, tolerance = member(value, "base"), member(value, "tolerance")
        if not is_text(base) or not (tolerance is ... or is_text(tolerance)):
            raise Fault("J2")
        url, nanos = base_of(base), TOLERANCE if tolerance is ... else duration_of(tolerance)
        if nanos is None or nanos > MOST_TOLERANCE:
            raise Fault("C2")
        if name in self.channels:
            return Reply(409, "channel exists\n")
        if len(self.channels) >= MOST_CHANNELS:
            return Reply(503)
        self.channels[name] = Channel(url, nanos)
        return Reply(201)

    def answer(self, request: Request) -> Reply:
        """What a request is answered, after which the channels are as it makes them. 404 for no route, then 405 with Allow, then
        404 for no channel."""
        route = route_of(request.target)
        if route is None:
            return Reply(404, "not found\n")
        name, what = route
        if request.method not in METHODS[what].split(", "):
            return Reply(405, "method not allowed\n", allow=METHODS[what])
        try:
            return self.make(name, request.body) if (request.method, what) == ("PUT", "") else self.of_channel(name, what, request)
        except Fault as fault:
            return refused(fault)

    def of_channel(self, name: str, what: str, request: Request) -> Reply:
        """What is answered of a channel that has to be there."""
        channel = self.channels.get(name)
        if channel is None:
            return Reply(404, "not found\n")
        if what == "":
            del self.channels[name]
        if what == "/origin":
            self.channels[name] = refreshed(channel, request.body)
        if what == "/decisions":
            self.channels[name] = decide(channel, request.body)
        if what == "/why":
            return Reply(200, "".join(f"{known}\t{word}\n" for known, word in words(channel)))
        if what == "/live.m3u8":
            text = written(channel)
            return Reply(404, "not found\n") if text is None else Reply(200, text, PLAYLIST)
        return Reply(204)

    def serve(self, given: bytes) -> bytes | None:
        """What is sent for all the bytes of a connection: the reply; or nothing (E4) if they end within a request."""
        try:
            request = request_of(given)
        except Refused as refusal:
            return reply_text(refusal.reply, "")
        except Unfinished:
            return None
        return reply_text(self.answer(request), request.method)
