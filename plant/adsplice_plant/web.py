"""Requests whose answers are bounded, by connections that are kept (http.client; URLs are read by httpx, Debian's python3-httpx).

Whatever a server sends, an answer takes no more than its time, bytes and pieces: from the first byte asked to the last one read
there is one limit of time, and one of bytes on the wire. No content coding is asked for, no cookie is kept, no proxy is used for
addresses of this machine, and a redirect is followed only within the origin (scheme, host and port), unless more is allowed. Each address
is judged before a socket connects to it.
"""
from __future__ import annotations

import base64
import functools
import http.client
import io
import re
import select
import socket
import ssl
import threading
import time
import urllib.request
from collections.abc import Callable, Iterator, Mapping
from dataclasses import dataclass, field
from typing import Any, NamedTuple

import httpx

from . import words
from .reach import Judge, Reach, is_of_this_machine

MAX_BYTES = 4_194_304  # of an answer: adsplice takes no longer playlist
MAX_HEAD = 65_536
LEAST_PIECE, FREE_PIECES = 16, 2000  # bytes of a piece (RFC 9112, 7.1) on the average, but for so many pieces
REDIRECTS = (301, 302, 303, 307, 308)
MOST_REDIRECTS = 5
CONNECT, KEPT = 3.0, 5.0  # seconds for a connection, and for which one is kept
PIECE = 65_536  # bytes that are read at a time
FIELDS = {"Accept": "*/*", "User-Agent": "adsplice-plant"}  # (http.client adds Accept-Encoding: identity)
CODED = "the answer has a content coding, which wasn't asked for"


@dataclass(frozen=True)
class Answer:
    """What was answered: `status` 0 if no whole answer came, and `why` then says why. `is_whole`: its connection may be used again."""

    status: int
    body: bytes = b""
    fields: Mapping[str, str] = field(default_factory=dict)
    why: str = ""
    url: str = ""
    is_whole: bool = False

    def line(self) -> str:
        """The first line of the body, for a fault's text; none for a page of a server in front."""
        text = self.body[:200].decode("utf-8", "replace").strip()
        return "" if text.startswith("<") else text.partition("\n")[0]


class Bounds:
    """What is left of the time and of the bytes of an answer, which may take `limit` seconds from now on, and have `most` bytes. `is_head_enough`: its body
    isn't read."""

    def __init__(self, limit: float, most: int = MAX_BYTES, is_head_enough: bool = False) -> None:
        self.until, self.left, self.is_head_enough = time.monotonic() + limit, 2 * most + MAX_HEAD, is_head_enough
        self.has_begun = False  # whether the head of the answer has come

    def time(self) -> float:
        """The seconds that a step may take; raises TimeoutError if none are left."""
        if (left := self.until - time.monotonic()) <= 0:
            raise TimeoutError
        return left


class Reading(io.RawIOBase):
    """The bytes that come over a `wire`."""

    def __init__(self, wire: Wire) -> None:
        self.wire = wire

    def readable(self) -> bool:
        """It is read."""
        return True

    def readinto(self, buffer: Any) -> int:
        """Reads into `buffer`; answers how many bytes, and 0 at the end. Raises OSError."""
        bounds = self.wire.bounds
        self.wire.sock.settimeout(bounds.time())
        count = self.wire.sock.recv_into(buffer)
        bounds.left -= count
        if bounds.left < 0:
            raise OSError(f"an answer of more than {2 * MAX_BYTES} bytes")
        return count

    def close(self) -> None:
        """No more is read."""
        if not self.closed:
            super().close()
            self.wire.let_go()


class Wire:
    """The connected socket `sock` of which each step is within `bounds`: what http.client asks of a socket."""

    def __init__(self, sock: socket.socket, bounds: Bounds) -> None:
        self.sock, self.bounds = sock, bounds
        self.users = 1  # the connection, and an answer that is read: the socket is closed once both have let it go

    def sendall(self, data: bytes) -> None:
        """Sends `data`."""
        self.sock.settimeout(self.bounds.time())
        self.sock.sendall(data)

    def makefile(self, mode: str) -> io.BufferedReader:
        """What comes, as a file."""
        self.users += 1
        return io.BufferedReader(Reading(self))

    def setsockopt(self, *option: int) -> None:
        """Sets an option of the socket."""
        self.sock.setsockopt(*option)

    def is_quiet(self) -> bool:
        """Whether nothing has come, the end neither: then the server waits for the next request."""
        poll = select.poll()
        poll.register(self.sock, select.POLLIN)
        return not poll.poll(0)

    def close(self) -> None:
        """The connection lets it go."""
        self.let_go()

    def let_go(self) -> None:
        """One that used the socket has done with it."""
        self.users -= 1
        if not self.users:
            self.sock.close()


class Target(NamedTuple):
    """A URL as a request needs it: its `text`, its parts, the `fields` by which its user and password are told, and the `proxy` for it, if there is
    one. (httpx reads a part anew whenever it is asked for.)"""

    text: str
    scheme: str
    host: str
    raw_host: str
    port: int | None
    path: str
    netloc: str
    fields: Mapping[str, str]
    proxy: str | None


class Connection(http.client.HTTPConnection):
    """A connection to the server of the URL `url`, by its proxy if there is one, under TLS if its scheme says so. `bounds` are those of the request
    that it is made for. `judge` says whether it may connect to an address; a proxy's isn't judged."""

    sock: Any

    def __init__(self, url: Target, bounds: Bounds, judge: Judge) -> None:
        to = url if url.proxy is None else target_of(url.proxy)
        self.judge = judge if url.proxy is None else lambda _: ""
        super().__init__(to.raw_host, to.port or (443 if to.scheme == "https" else 80))
        self.bounds, self.name = bounds, url.raw_host
        self.is_secure, self.kept_at = url.scheme == "https", 0.0
        self.sends_whole_url = url.proxy is not None and not self.is_secure
        self.fields = dict(to.fields) if url.proxy is not None else {}  # for the proxy
        if url.proxy is not None and self.is_secure:
            self.set_tunnel(self.name, url.port or 443, {"Proxy-Authorization": it for it in self.fields.values()})
        self._create_connection = self.connected

    def connected(self, address: tuple[str, int], *_more: object) -> Wire:
        """A socket that is connected to `address`, a host and a port: to the first of its addresses that may be connected to and takes it."""
        fault: OSError | None = None
        for family, kind, protocol, _, to in socket.getaddrinfo(*address, type=socket.SOCK_STREAM):
            if why := self.judge(str(to[0])):
                fault = fault or OSError(why)
                continue
            one = socket.socket(family, kind, protocol)
            try:
                one.settimeout(min(CONNECT, self.bounds.time()))
                one.connect(to)
                return Wire(one, self.bounds)
            except OSError as failed:
                one.close()
                fault = failed
        raise fault or OSError("it has no address")

    def connect(self) -> None:
        """Connects. (Without a delay in TCP a body doesn't wait until its head is acknowledged.)"""
        super().connect()
        if self.is_secure:
            plain = self.sock.sock
            plain.settimeout(self.bounds.time())
            self.sock = Wire(certificates().wrap_socket(plain, server_hostname=self.name), self.bounds)

    def begin(self, bounds: Bounds) -> None:
        """Another request is made, within `bounds`."""
        self.bounds = self.sock.bounds = bounds

    def is_ready(self) -> bool:
        """Whether it may be used for another request."""
        return self.sock is not None and time.monotonic() - self.kept_at < KEPT and bool(self.sock.is_quiet())


@functools.cache
def certificates() -> ssl.SSLContext:
    """The certificates that servers are checked by, read once."""
    return httpx.create_ssl_context()


@functools.lru_cache(1024)
def target_of(text: str) -> Target:
    """The URL `text` as a request needs it; raises ValueError if it doesn't read."""
    it = url_of(text)
    return Target(str(it), it.scheme, it.host, it.raw_host.decode(), it.port, it.raw_path.decode(), it.netloc.decode(), password_of(it), proxy_for(it))


@functools.lru_cache(1024)
def url_of(text: str) -> httpx.URL:
    """The URL `text`; raises ValueError if it doesn't read."""
    return read_url(lambda: httpx.URL(text))


def read_url(read: Callable[[], httpx.URL]) -> httpx.URL:
    """The URL that `read` answers; raises ValueError if that, or its host and port, don't read. (httpx raises faults of the libraries under it.)"""
    try:
        found = read()
        _ = found.host, found.raw_host, found.port, found.raw_path, found.netloc  # (each is read when it is asked for)
        return found
    except Exception as fault:  # noqa: BLE001
        raise ValueError(f"it isn't a URL: {words.plain(str(fault)[:100])}") from None


def password_of(url: httpx.URL) -> dict[str, str]:
    """The field by which the user and the password in `url` are told (RFC 7617); none if it has none."""
    if not url.userinfo:
        return {}
    return {"Authorization": f"Basic {base64.b64encode(f'{url.username}:{url.password}'.encode()).decode()}"}


def strays(text: str, first: str, redirects: bool, reach: Reach) -> str:
    """Why the URL `text` isn't read, to which the server of the URL `first` leads by a list or a redirect; empty if it may be. It has the
    scheme, the host and the port of `first` (RFC 6454, 4), unless `redirects` says that others are followed. Where its host is an address,
    that is in `reach`."""
    try:
        one, other = url_of(text), url_of(first)
    except ValueError as fault:
        return str(fault)
    if one.scheme not in ("http", "https") or not one.host:
        return "it isn't a URL that begins with http:// or https://"
    if not has_same_origin(one, other) and not redirects:
        return "it is of another host, port or scheme: `redirects = yes` has it read"
    return reach.strays(one.host, (other.host,))


def has_same_origin(one: httpx.URL, other: httpx.URL) -> bool:
    """Whether both URLs have one scheme, host and port."""
    return (one.scheme, one.host, one.port) == (other.scheme, other.host, other.port)


def proxy_for(url: httpx.URL) -> str | None:
    """The proxy of the environment for `url`; none for this machine."""
    if is_of_this_machine(url.host) or urllib.request.proxy_bypass(url.host):
        return None
    return urllib.request.getproxies().get(url.scheme)


def why_of(fault: Exception) -> str:
    """What is told of a request that failed by `fault`."""
    if isinstance(fault, http.client.IncompleteRead):
        return "peer closed connection without sending complete message body"
    if isinstance(fault, http.client.RemoteDisconnected):
        return "Server disconnected without sending a response."
    if isinstance(fault, http.client.BadStatusLine):
        return "the answer isn't one of HTTP"
    return words.plain(re.sub(r"^\[Errno -?[0-9]{1,5}\] ", "", str(fault)[:200].partition("\n")[0])) or type(fault).__name__


class Client:
    """Asks by connections of its own, each request within a bound of `limit` seconds from its begin to its last byte. A redirect
    to another host, port or scheme is followed if `redirects` says so. Its addresses are in `reach`. Several threads may ask at a time."""

    def __init__(self, limit: float, redirects: bool = False, reach: Reach | None = None) -> None:
        self.limit, self.redirects, self.reach, self.lock = limit, redirects, reach or Reach(), threading.Lock()
        self.idle: dict[tuple[str, str, int | None, str | None], list[Connection]] = {}  # by scheme, host and port, and the proxy

    def ask(self, method: str, url: str, body: bytes | None = None, fields: Mapping[str, str] | None = None, limit: float | None = None,
            is_head_enough: bool = False) -> Answer:
        """The answer to a request of `method` for `url`, with the bytes `body` and the header fields `fields`; within `limit` seconds, if that is named. If
        its head is enough, nothing after that is read."""
        limit = self.limit if limit is None else limit
        bounds = Bounds(limit, is_head_enough=is_head_enough)
        try:
            first = at = target_of(url)
            for _ in range(MOST_REDIRECTS):
                answer = self.once(method, at, body, fields or {}, bounds, first.host)
                if method != "GET" or answer.status not in REDIRECTS or "location" not in answer.fields:
                    return answer
                before, location = at, answer.fields["location"]
                at = target_of(str(read_url(lambda: url_of(before.text).join(location))))
                if why := strays(at.text, first.text, self.redirects, self.reach):
                    return Answer(0, why=words.plain(f"a redirect to {at.scheme[:10]}://{at.host[:100]} isn't followed: {why}"))
            return Answer(0, why=f"more than {MOST_REDIRECTS} redirects")
        except TimeoutError:
            return Answer(0, why=f"no {'whole ' if bounds.has_begun else ''}answer within {limit:.3g} s")
        except (http.client.HTTPException, OSError, ValueError) as fault:
            return Answer(0, why=why_of(fault))

    def lines(self, url: str, body: bytes, fields: Mapping[str, str], silence: float, most: int) -> Iterator[bytes]:
        """The lines of the answer to a POST of the bytes `body` to `url`, with the header fields `fields`, as they come: each within `silence` seconds of
        the one before, and of at most so many bytes. Ends with the answer; raises OSError, HTTPException or ValueError."""
        at = target_of(url)
        it = Connection(at, Bounds(silence), self.reach.judge(at.host, (at.host,)))
        try:
            send(it, "POST", at, body, fields)
            wire = it.sock
            with it.getresponse() as reply:
                if reply.status != 200:
                    raise http.client.HTTPException(f"it answers {reply.status}")
                while line := reply.readline(most + 1):
                    if len(line) > most:
                        raise OSError(f"a line of more than {most} bytes")
                    yield line
                    wire.bounds = Bounds(silence, most)
        finally:
            it.close()

    def once(self, method: str, url: Target, body: bytes | None, fields: Mapping[str, str], bounds: Bounds, named: str) -> Answer:
        """The answer to one request, within `bounds`, that began at the host `named`; raises HTTPException, OSError or ValueError."""
        if url.scheme not in ("http", "https") or not url.host:
            raise ValueError(f"{url.text[:100]!r} isn't a URL that begins with http:// or https://")
        key = url.scheme, url.raw_host, url.port, url.proxy
        it = self.connection(key, url, bounds, named)
        try:
            send(it, method, url, body, fields)
            with it.getresponse() as reply:
                answer = read(reply, url, bounds)
        except BaseException:
            it.close()
            raise
        if it.sock is not None and answer.is_whole:
            it.kept_at = time.monotonic()
            with self.lock:
                self.idle.setdefault(key, []).append(it)
        else:
            it.close()
        return answer

    def connection(self, key: tuple[str, str, int | None, str | None], url: Target, bounds: Bounds, named: str) -> Connection:
        """A connection to the server of `url`: one of those that are kept under `key`, or a new one, within the reach of the host `named`."""
        while True:
            with self.lock:
                its = self.idle.get(key)
                it = its.pop() if its else None
            if it is None:
                host = next((name for name in (url.host, url.raw_host) if name in self.reach.named), url.host)  # (it may be named by its ASCII form)
                return Connection(url, bounds, self.reach.judge(host, (named,)))
            if it.is_ready():
                it.begin(bounds)
                return it
            it.close()

    def close(self) -> None:
        """Closes its connections."""
        with self.lock:
            its, self.idle = [it for one in self.idle.values() for it in one], {}
        for it in its:
            it.close()


def send(it: Connection, method: str, url: Target, body: bytes | None, fields: Mapping[str, str]) -> None:
    """Sends a request over the connection `it`. Raises OSError."""
    it.putrequest(method, f"{url.scheme}://{url.netloc}{url.path}" if it.sends_whole_url else url.path)
    proxy = {"Proxy-Authorization": value for value in it.fields.values()} if it.sends_whole_url else {}
    for name, value in {**FIELDS, **url.fields, **proxy, **fields}.items():
        it.putheader(name, value)
    if body is not None:
        it.putheader("Content-Length", str(len(body)))
    it.endheaders(body)


def read(reply: http.client.HTTPResponse, url: Target, bounds: Bounds) -> Answer:
    """The answer `reply` of the server of `url`, within `bounds`; raises HTTPException or OSError."""
    bounds.has_begun = True
    said: dict[str, str] = {}
    for name, value in ((name.lower(), value) for name, value in reply.headers.items()):
        said[name] = f"{said[name]}, {value}" if name in said else value
    lengths = set(reply.headers.get_all("content-length", []))
    if len(lengths) > 1 or any(not (it.isascii() and it.strip().isdigit()) for it in lengths):
        raise http.client.HTTPException("Content-Length isn't one number")
    if said.get("content-encoding", "identity").strip().lower() not in ("", "identity"):
        return Answer(0, why=CODED)
    if bounds.is_head_enough and not reply.isclosed():
        return Answer(reply.status, b"", said, url=url.text)
    held, pieces = bytearray(), 0
    while piece := reply.read1(PIECE):
        held += piece
        pieces += 1
        if len(held) > MAX_BYTES:
            return Answer(0, why=f"an answer of more than {MAX_BYTES} bytes")
        if pieces > FREE_PIECES + len(held) // LEAST_PIECE:
            return Answer(0, why="an answer in pieces of a few bytes")
        bounds.time()
    if reply.length:
        raise http.client.IncompleteRead(b"")
    reply.read()  # (nothing is left; the connection is free then)
    return Answer(reply.status, bytes(held), said, url=url.text, is_whole=reply.isclosed() and not reply.will_close)
