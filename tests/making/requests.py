"""Requests of all kinds to several channels: heads that don't read, bodies that are refused, connections that end too early."""
from __future__ import annotations

from collections.abc import Callable
from random import Random

from .channels import Packager, channel_body, decisions_body, origin_body, request
from .common import is_lucky

NAMES = ("a", "b", "news", "x-9", "z" * 32)
NO_PATHS = ("/", "/channels", "/channels/", "/channels/A", "/channels/a/", "/channels/" + "z" * 33, "/channels/a%61", "/channels/a/live",
            "/channels//why", "/channels/é", "*", "http://h/channels/a/why", "/channels/a/why/x", "/channels/a_b", "/Channels/a",
            "/channels/a#x", "/channels/a/Why", "//channels/a")
BODIES = (b"", b"{", b"[]", b"{}", b'{"base":7}', b'{"base":"ftp://h/"}', b'{"base":"http://h/","tolerance":7}',
          b'{"base":"http://h/","tolerance":null}', b'{"base":"http://h/","tolerance":"10.000000001"}', b'{"base":"x","tolerance":"11"}',
          b'{"base":"http://h/","tolerance":"x"}', b'{"base":"http://h/","tolerance":""}', b'{"base":"http://h/","other":[1]}',
          b'{"base":"http://h/","base":"http://i/"}', b'{"base":"http://h/","tolerance":"10"}', b'"\xff"', b"null")
LENGTHS = ("Content-Length: x", "Content-Length:", "Content-Length: -1", "Content-Length: +5", "Content-Length: 4194305",
           "Content-Length: 00000000000000000000", "Content-Length: 000000000000000000000", "Content-Length: 18446744073709551616",
           "Transfer-Encoding: chunked", "TRANSFER-ENCODING: x\r\nContent-Length: 2", "Content-Length: 2\r\ncontent-length: 2",
           "cOnTeNt-lEnGtH: \t 2\t ", "Content-Length: 2, 2", "X: y", "Content-Length: 2 2")
HEADS = (b"GET /channels/a/why HTTP/1.1\n\n", b"\r\n\r\nGET /channels/a/why HTTP/1.1\r\n\r\n", b"GET  /channels/a/why HTTP/1.1\r\n\r\n",
         b"GET /channels/a/why HTTP/1.2\r\n\r\n", b"GET /channels/a/why HTTP/2.0\r\n\r\n", b"GET /channels/a/why\r\n\r\n",
         b"GET /channels/a/why HTTP/1.0\r\nHost: h\n\r\n", b"G\x00T / HTTP/1.1\r\n\r\n", b"G(T / HTTP/1.1\r\n\r\n",
         b"GET /\xff HTTP/1.1\r\n\r\n", b"GET /\xc3\xa9 HTTP/1.1\r\n\r\n", b"GET / HTTP/1.1\r\nA B: c\r\n\r\n", b"GET / HTTP/1.1\r\n: c\r\n\r\n",
         b"GET / HTTP/1.1\r\nA: b\r\n c\r\n\r\n", b"GET / HTTP/1.1\r\nA\r\n\r\n", b"GET / HTTP/1.1\r\nA: \x01\r\n\r\n", b"\x16\x03\x01\x02\x00",
         b"GET / HTTP/1.1\r\nA:\xff\t~\r\n\r\n", b"GET / HTTP/1.1 \r\n\r\n", b" GET / HTTP/1.1\r\n\r\n", b"GET / http/1.1\r\n\r\n",
         b"GET / HTTP/1.1\r\nA : b\r\n\r\n", b"\rGET / HTTP/1.1\r\n\r\n", b"GET /\x7f HTTP/1.1\r\n\r\n", b"GET / HTTP/1.1\r\r\n\r\n")


def of_length(rng: Random, total: int) -> bytes:
    """A head of so many bytes."""
    front, back = b"GET /channels/a/why HTTP/1.1\r\nX: ", b"\r\n\r\n"
    return front + b"y" * (total - len(front) - len(back)) + back


def of_fields(rng: Random, count: int) -> bytes:
    """A head of so many fields."""
    return b"GET /channels/a/why HTTP/1.1\r\n" + b"".join(b"F%d: v\r\n" % n for n in range(count)) + b"\r\n"


def cut_short(rng: Random, asked: bytes) -> bytes:
    """The front of a request."""
    return asked[:rng.randrange(len(asked))]


def odd_request(rng: Random, name: str) -> bytes:
    """A request that is wrong, or unusual."""
    path = f"/channels/{name}{rng.choice(('', '/origin', '/decisions', '/live.m3u8', '/why'))}"
    makers: tuple[Callable[[], bytes], ...] = (
        lambda: rng.choice(HEADS),
        lambda: request(rng.choice(("GET", "PUT", "POST", "DELETE")), rng.choice(NO_PATHS), b"{}"),
        lambda: request(rng.choice(("GET", "PUT", "POST", "DELETE", "HEAD", "OPTIONS", "put")), path, rng.choice((b"{}", None))),
        lambda: request("PUT", f"/channels/{name}", rng.choice(BODIES)),
        lambda: f"PUT {path} HTTP/1.1\r\n{rng.choice(LENGTHS)}\r\n\r\n{{}}".encode(),
        lambda: cut_short(rng, request("PUT", f"/channels/{name}", channel_body(rng))),
        lambda: cut_short(rng, request("GET", path)),
        lambda: request("GET", f"{path}?{rng.choice(('', 'x=1', 'é', '?'))}"),
        lambda: request("HEAD", rng.choice((path, "/x"))) + b"more bytes",
        lambda: request("PUT", path, b"{}") + b"more bytes",
        lambda: of_length(rng, rng.choice((16_383, 16_384, 16_385, 20_000))),
        lambda: of_fields(rng, rng.choice((63, 64, 65))),
        lambda: of_fields(rng, rng.choice((63, 64, 65)))[:-rng.choice((1, 2, 3, 5, 8))],
        lambda: of_length(rng, rng.choice((16_383, 16_384, 16_385, 16_386)))[:-rng.choice((1, 2, 3, 5))],
        lambda: b"",
    )
    return rng.choice(makers)()


def many_channels(rng: Random) -> list[bytes]:
    """64 channels, and one more."""
    asked = [request("PUT", f"/channels/c{n}", b'{"base":"http://h/"}') for n in range(65)]
    return asked + [request("DELETE", "/channels/c7"), request("PUT", "/channels/c64", b'{"base":"http://h/"}'),
                    request("PUT", "/channels/c1", b'{"base":"http://h/"}'), request("GET", "/channels/c64/why")]


def next_request(rng: Random, name: str, packager: Packager) -> bytes:
    """A request to one of the channels, of any kind."""
    makers: tuple[Callable[[], bytes], ...] = (
        lambda: request("PUT", f"/channels/{name}/origin", origin_body(packager)),
        lambda: request("PUT", f"/channels/{name}/origin", origin_body(packager)),
        lambda: request("PUT", f"/channels/{name}/decisions", decisions_body(packager)),
        lambda: request("GET", f"/channels/{name}/live.m3u8"),
        lambda: request("GET", f"/channels/{name}/why"),
        lambda: request("DELETE", f"/channels/{name}") if is_lucky(rng, 0.3) else request("GET", f"/channels/{name}/why"),
        lambda: odd_request(rng, name), lambda: odd_request(rng, name))
    return rng.choice(makers)()


def case(rng: Random) -> list[bytes]:
    """Connections, one after the other."""
    if is_lucky(rng, 1 / 500):
        return many_channels(rng)
    names = rng.sample(NAMES, 2)
    packagers = {name: Packager(rng) for name in names}
    asked = [request("PUT", f"/channels/{name}", channel_body(rng)) for name in names if not is_lucky(rng, 0.1)]
    for _ in range(rng.choice((4, 8, 14))):
        name = rng.choice(names)
        asked.append(next_request(rng, name, packagers[name]))
        packagers[name].move()
        packagers[name].ahead()
    return asked
