"""Connections whose devices move few bytes at a time, fail, or end too early, worked by hand: each read and each write of
a request fails in turn, and the same request is then answered as if nothing had been."""
import json
from math import ceil

from events import BASE, Case
from playlists import daterange, decisions, origin_text, owed_text, window

READ, WRITE = 40, 50  # bytes that a read gives, and that a write takes
PLAYLIST = origin_text(0, 2, ranges=[daterange("b1", 10)])
SHOWN = owed_text(window("s0 / a0 a1"))
TYPES = {"text": "Content-Type: text/plain; charset=utf-8\r\n",
         "playlist": "Content-Type: application/vnd.apple.mpegurl\r\n", "": ""}


def request(method, target, body=None):
    length = "" if body is None else f"Content-Length: {len(body)}\r\n"
    return f"{method} {target} HTTP/1.1\r\nHost: ads.example\r\n{length}\r\n{body or ''}"


def reply(status, kind="", body=""):
    """A reply by its status line; none but 204 is without a length."""
    length = "" if status.startswith("204") else f"Content-Length: {len(body)}\r\n"
    return f"HTTP/1.1 {status}\r\n{TYPES[kind]}{length}Connection: close\r\n\r\n{body}"


def serve(case, asked, outcome, written, failing_read=0, failing_write=0):
    case.serve(READ, failing_read, WRITE, failing_write, asked, outcome, written)


def each_read_fails(case, asked):
    for place in range(1, ceil(len(asked) / READ) + 1):
        serve(case, asked, "E1 Read", "", failing_read=place)


def each_cut_ends(case, asked):
    """The client goes away after so many bytes."""
    for length in range(0, len(asked), 7):
        serve(case, asked[:length], "E4 Ended", "")


def each_write_fails(case, asked, owed):
    """The reply is taken as far as the failing write, and no write follows it."""
    for place in range(1, ceil(len(owed) / WRITE) + 1):
        serve(case, asked, "E2 Write", owed[:WRITE * (place - 1)], failing_write=place)


def tried(case, asked, owed):
    """A request with each read failing, each cut, and then whole."""
    each_read_fails(case, asked)
    each_cut_ends(case, asked)
    serve(case, asked, owed.split(" ")[1], owed)


def failing_devices():
    case = Case("devices of connections fail at each call").edge()
    channel, origin, decided = "/channels/news", "/channels/news/origin", "/channels/news/decisions"
    shown, why = "/channels/news/live.m3u8", "/channels/news/why"
    pods = decisions(("b1", ["a0", "a1"]))
    none_found = reply("404 Not Found", "text", "not found\n")
    tried(case, request("GET", shown), none_found)
    tried(case, request("PUT", channel, json.dumps({"base": BASE, "tolerance": "0.1"})), reply("201 Created"))
    tried(case, request("PUT", decided, pods), reply("204 No Content"))
    tried(case, request("GET", shown), none_found)
    tried(case, request("PUT", origin, PLAYLIST), reply("204 No Content"))
    asked, owed = request("GET", shown), reply("200 OK", "playlist", SHOWN)
    tried(case, asked, owed)
    each_write_fails(case, asked, owed)
    # HEAD is no method here; its reply tells the length of a body, and has none.
    refused = ("HTTP/1.1 405 Method Not Allowed\r\nContent-Type: text/plain; charset=utf-8\r\nAllow: GET\r\n"
               "Content-Length: 19\r\nConnection: close\r\n\r\n")
    tried(case, request("HEAD", shown), refused)
    each_write_fails(case, request("HEAD", shown), refused)
    asked, owed = request("GET", why), reply("200 OK", "text", "b1\tFilled\n")
    tried(case, asked, owed)
    each_write_fails(case, asked, owed)
    # A reply that couldn't be written leaves the request applied.
    asked = request("PUT", decided, pods)
    owed = reply("409 Conflict", "text", "J9 Used\n")
    each_write_fails(case, asked, owed)
    serve(case, request("DELETE", channel), "E2 Write", "", failing_write=1)
    tried(case, request("DELETE", channel), none_found)
    serve(case, request("PUT", channel, json.dumps({"base": BASE})), "E2 Write", "", failing_write=1)
    tried(case, request("PUT", channel, json.dumps({"base": BASE})), reply("409 Conflict", "text", "channel exists\n"))
    serve(case, request("PUT", origin, PLAYLIST), "E2 Write", "", failing_write=1)
    unfilled = owed_text(window("s0 s1 s2"), ranges=[daterange("b1", 10)])
    tried(case, request("GET", shown), reply("200 OK", "playlist", unfilled))
    return case


CONNECTIONS = [failing_devices()]
