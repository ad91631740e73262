"""HTTP on loopback, or on a Unix socket: one request a connection. Whoever asks is hostile or broken.

Python's http.server reads the requests. Their bytes, their time and their number are bounded here: where there is no room for another
connection, the one goes whose request has been incomplete longest.
"""
from __future__ import annotations

import argparse
import errno
import http.server
import io
import ipaddress
import os
import socket
import socketserver
import stat
import threading
import time
from collections.abc import Callable
from contextlib import suppress
from dataclasses import dataclass
from enum import IntEnum
from pathlib import Path
from typing import Any, TypeVar

from . import words
from .words import Fault

GIVES_WAY = 0.5  # seconds in which a connection goes that makes room
PIECE = 65_536  # bytes of a body that are read at a time
LINGER = 1.0  # seconds for which the rest of a refused request is read, so that the client gets its answer
HEAD_SECONDS = 3.0  # for a request's head
MAX_HEAD = 16_384  # bytes of a request's head
MODE = 0o660  # of a Unix socket: the program's user and group
TEXT = "text/plain; charset=utf-8"
TOO_MANY = b"HTTP/1.1 503 Service Unavailable\r\nConnection: close\r\nContent-Length: 29\r\n\r\ntoo many connections at once\n"
Value = TypeVar("Value")
Reply = tuple[int, bytes, str]  # status, body, type


class Refused(Exception):
    """A request that is answered by `status` and one line."""

    def __init__(self, status: int, text: str) -> None:
        super().__init__(text)
        self.status, self.text = status, text


def line(status: int, text: str) -> Reply:
    """The answer of this `status` with the line `text`."""
    return status, f"{text}\n".encode("utf-8", "replace"), TEXT


def address_of(text: str) -> str:
    """The address `text`: ADDRESS:PORT on loopback, or the path of a Unix socket; raises if it is neither."""
    if text.startswith("/"):
        if len(os.fsencode(text)) > 100:
            raise argparse.ArgumentTypeError(f"{text!r}: the path of a Unix socket has at most 100 bytes")
        return text
    host, _, port = text.rpartition(":")
    try:
        is_right = ipaddress.ip_address(host.strip("[]")).is_loopback
    except ValueError:
        is_right = host == "localhost"
    if not is_right or not (port.isascii() and port.isdigit() and len(port) <= 5 and int(port) <= 65535):
        raise argparse.ArgumentTypeError(f"{text!r} isn't an address of loopback with a port, such as 127.0.0.1:9084, nor the path of a Unix socket")
    return text


@dataclass(frozen=True)
class Limits:
    """How many `connections` there are at a time; the `seconds` for a request and its answer; the bytes of a `body`, and of all of them together that are
    `held`."""

    connections: int
    seconds: float
    body: int
    held: int


class Bounded(io.RawIOBase):
    """The bytes of the connection `sock` until the moment `until` of the monotonic clock, and at most `left` of them."""

    def __init__(self, sock: socket.socket, until: float, left: int) -> None:
        self.sock, self.until, self.left = sock, until, left

    def readable(self) -> bool:
        """It is read."""
        return True

    def readinto(self, buffer: Any) -> int:
        """Reads into `buffer`; answers how many bytes, and 0 at the end."""
        rest = self.until - time.monotonic()
        if rest <= 0:
            raise TimeoutError
        self.sock.settimeout(rest)
        count = self.sock.recv_into(memoryview(buffer)[: self.left]) if self.left else 0
        self.left -= count
        return count


class Stage(IntEnum):
    """How far a connection is, in the order in which it makes room for another one."""

    READ, ENDED, ANSWERED = range(3)  # its request isn't whole; it has its answer; it is being answered


@dataclass
class Seat:
    """The place of a connection with the socket `sock` since the moment `begun`, how far it is, and the bytes of its body that are `held`."""

    sock: socket.socket
    begun: float
    stage: Stage = Stage.READ
    held: int = 0
    is_given_up: bool = False

    def give_up(self) -> None:
        """It makes room for another one."""
        self.is_given_up = True
        with suppress(OSError):
            self.sock.shutdown(socket.SHUT_RDWR)  # (whoever waits for its bytes sees an end)


class Seats:
    """The places of connections, within `limits`."""

    def __init__(self, limits: Limits) -> None:
        self.limits = limits
        self.seats: dict[socket.socket, Seat] = {}
        self.changed = threading.Condition()

    def take(self, sock: socket.socket) -> bool:
        """Takes a place for the connection `sock`; whether there was one, or one has made room: the oldest whose request isn't whole, or that only ends."""
        until = time.monotonic() + GIVES_WAY
        with self.changed:
            if len(self.seats) >= self.limits.connections and (oldest := self.oldest(Stage.ENDED)) is not None:
                oldest.give_up()
            while len(self.seats) >= self.limits.connections:
                if (rest := until - time.monotonic()) <= 0 or not any(it.is_given_up for it in self.seats.values()):
                    return False
                self.changed.wait(rest)
            self.seats[sock] = Seat(sock, time.monotonic())
        return True

    def oldest(self, last: Stage) -> Seat | None:
        """The first to make room of those that are no further than the stage `last`; none if there is none."""
        found = sorted((it for it in self.seats.values() if it.stage <= last and not it.is_given_up), key=lambda it: (it.stage, it.begun))
        return found[0] if found else None

    def leave(self, sock: socket.socket) -> None:
        """The connection `sock` has gone."""
        with self.changed:
            self.seats.pop(sock, None)
            self.changed.notify_all()

    def hold(self, sock: socket.socket, count: int) -> None:
        """So many bytes more (`count`) of the body of `sock` are held. If all hold too many, the oldest whose body isn't whole makes room; raises
        Refused if there is no other one."""
        with self.changed:
            own = self.seats[sock]
            own.held += count
            while sum(it.held for it in self.seats.values() if not it.is_given_up) > self.limits.held:
                oldest = min((it for it in self.seats.values() if it.stage is Stage.READ and it.held and not it.is_given_up), key=lambda it: it.begun, default=own)
                if oldest is own:
                    raise Refused(503, "requests hold too many bytes; ask again")
                oldest.give_up()

    def go_on(self, sock: socket.socket, stage: Stage) -> None:
        """The connection `sock` has come to a `stage`; raises ConnectionError if it makes room for another one."""
        with self.changed:
            self.seats[sock].stage = stage
            if self.seats[sock].is_given_up:
                raise ConnectionAbortedError


class Handler(http.server.BaseHTTPRequestHandler):
    """One request of a connection, and its answer. A service has a class of its own with a method for each method of HTTP that is `allowed`; a body is `thing`."""

    protocol_version = "HTTP/1.1"
    default_request_version = "HTTP/1.0"  # (so that what is no request has a status, too)
    server: Server
    rfile: io.BufferedReader
    allowed, thing = "", "a body"

    def setup(self) -> None:
        """The connection's bytes are bounded."""
        super().setup()
        begun, limits = time.monotonic(), self.server.seats.limits
        self.until = begun + limits.seconds
        self.bounded = Bounded(self.connection, begun + HEAD_SECONDS, MAX_HEAD + limits.body)
        self.rfile = io.BufferedReader(self.bounded)

    def handle(self) -> None:
        """Answers one request."""
        self.close_connection = True
        self.handle_one_request()
        self.server.seats.go_on(self.connection, Stage.ENDED)
        self.linger()

    def answer(self, act: Callable[[], Reply]) -> None:
        """Answers what `act` does, or why it is refused."""
        self.bounded.until = self.until
        try:
            if sum(len(name) + len(value) + 4 for name, value in self.headers.items()) > MAX_HEAD:
                raise Refused(431, f"a head has at most {MAX_HEAD} bytes")
            if "Origin" in self.headers:
                raise Refused(403, "pages in a browser may not ask")
            self.reply(*act())
        except Refused as refusal:
            self.reply(*line(refusal.status, refusal.text))

    def whole(self, it: Value) -> Value:
        """`it`, once the request is whole: no other connection takes its place then."""
        self.server.seats.go_on(self.connection, Stage.ANSWERED)
        return it

    def body(self) -> bytes:
        """The request's body, which makes it whole; raises Refused."""
        stated: list[str] = self.headers.get_all("Content-Length", [])
        most = self.server.seats.limits.body
        if "Transfer-Encoding" in self.headers or not stated:
            raise Refused(411, "a body needs a Content-Length, and no Transfer-Encoding")
        if len(stated) > 1 or not (stated[0].isascii() and stated[0].isdigit()):
            raise Refused(400, "Content-Length isn't one number")
        if len(stated[0]) > 12 or int(stated[0]) > most:
            raise Refused(413, f"{self.thing} has at most {most} bytes")
        found, size = bytearray(), int(stated[0])
        while len(found) < size and (piece := self.rfile.read1(min(PIECE, size - len(found)))):
            found += piece
            self.server.seats.hold(self.connection, len(piece))
        if len(found) < size:
            raise Refused(400, "the body ended early")
        return self.whole(bytes(found))

    def reply(self, status: int, data: bytes, kind: str) -> None:
        """Sends the answer of this `status` with `data` of this `kind`."""
        self.connection.settimeout(max(0.1, self.until - time.monotonic()))
        self.send_response(status)
        self.send_header("Connection", "close")
        if status != 204:
            self.send_header("Content-Type", kind)
            self.send_header("Content-Length", str(len(data)))
        if status == 405:
            self.send_header("Allow", self.allowed)
        self.end_headers()
        self.wfile.write(b"" if status == 204 else data)

    def send_error(self, code: int, message: str | None = None, explain: str | None = None) -> None:
        """What http.server refuses by itself, by a `code` and a `message` (it has no use for `explain`), is one line, too; a method that there isn't is 405."""
        self.reply(*line(405 if code == 501 else int(code), words.plain((message or "it isn't a request that is known")[:200])))

    def linger(self) -> None:
        """Reads what is left of a request for a while: a connection that is closed before loses its answer."""
        try:
            self.connection.shutdown(socket.SHUT_WR)
            until = time.monotonic() + LINGER
            while (rest := until - time.monotonic()) > 0:
                self.connection.settimeout(rest)
                if not self.connection.recv(65_536):
                    return
        except OSError:
            return

    def version_string(self) -> str:
        """What the answers say of their server."""
        return self.server.name

    def log_message(self, format: str, *args: Any) -> None:  # noqa: A002
        """Requests aren't told one by one."""


class Server(socketserver.ThreadingMixIn, socketserver.TCPServer):
    """A server of this `name` at `address`, within `limits`; each connection that has a seat has a thread, and a `handler`."""

    daemon_threads, block_on_close, request_queue_size = True, False, 64

    def __init__(self, address: str, handler: type[Handler], name: str, limits: Limits) -> None:
        self.name, self.seats = name, Seats(limits)
        self.path = Path(address) if address.startswith("/") else None
        self.allow_reuse_address = self.path is None
        if self.path is not None:
            self.address_family = socket.AF_UNIX
            free(self.path)
            super().__init__(address, handler)  # type: ignore[arg-type]
            self.path.chmod(MODE)
            return
        host, _, port = address.rpartition(":")
        host = "127.0.0.1" if host == "localhost" else host.strip("[]")
        self.address_family = socket.AF_INET6 if ":" in host else socket.AF_INET
        super().__init__((host, int(port)), handler)

    def process_request(self, request: Any, client_address: Any) -> None:
        """Answers the connection `request` in a thread, or refuses it if there are too many."""
        if not self.seats.take(request):
            request.settimeout(0.1)
            try:
                request.sendall(TOO_MANY)
            finally:
                self.shutdown_request(request)
            return
        try:
            super().process_request(request, client_address)
        except RuntimeError:  # (no thread can be started)
            self.seats.leave(request)
            self.shutdown_request(request)

    def process_request_thread(self, request: Any, client_address: Any) -> None:
        """Answers the connection `request`."""
        try:
            super().process_request_thread(request, client_address)
        finally:
            self.seats.leave(request)

    def handle_error(self, request: Any, client_address: Any) -> None:
        """A client that went away or was too slow is nobody's trouble but its own."""

    def close(self) -> None:
        """Takes no more requests, and leaves no socket."""
        self.shutdown()
        self.server_close()
        if self.path is not None:
            self.path.unlink(missing_ok=True)


def free(path: Path) -> None:
    """Takes a Unix socket at `path` away that nobody listens on any more; raises OSError if anything else is there."""
    try:
        if not stat.S_ISSOCK(path.lstat().st_mode):
            raise FileExistsError(errno.EEXIST, "something else is there")
    except FileNotFoundError:
        return
    with socket.socket(socket.AF_UNIX) as it:
        it.settimeout(1)
        if it.connect_ex(str(path)) == 0:
            raise OSError(errno.EADDRINUSE, "another process listens there")
    path.unlink(missing_ok=True)


ServerKind = TypeVar("ServerKind", bound=Server)


def opened(option: str, address: str, make: Callable[[], ServerKind]) -> ServerKind:
    """The server that `make` makes at the `address`, which the `option` names; it answers from now on. Raises Fault if it can't be opened."""
    try:
        server = make()
    except OSError as fault:
        raise Fault(f"{option} {address}: {fault.strerror or fault}") from None
    threading.Thread(target=server.serve_forever, args=(0.2,), daemon=True).start()
    return server
