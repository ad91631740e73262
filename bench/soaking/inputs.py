"""Inputs by their numbers: each is a few lines for one of the programs, of which one is changed from a good one.

An input depends on the seed and its number alone, so that each can be made again and given alone.
"""
import re
from collections import namedtuple
from random import Random

import changes
from changes import ATTRIBUTES, DECISIONS, PLAYLIST, REQUESTS, changed, joined
from large import LARGE
from seeds import CHANNEL

BASE = b"http://origin.example/ch/index.m3u8"
BODY = b'{"base":"' + BASE + b'"}'
CHANNEL_LINE = b"channel 100000000 " + BASE
LARGE_EVERY = 5000  # one input of so many is a large one

LENGTH = re.compile(rb"(content-length:[ \t]*)\d+", re.IGNORECASE)

# `program`: which process of the program it goes to; `asked`: the lines; `at`: the place of the changed one.
Input = namedtuple("Input", "kind program asked at")

ESCAPES = {n: chr(n) if 32 <= n < 127 else f"\\x{n:02x}" for n in range(256)} | {10: "\\n", 13: "\\r", 92: "\\\\"}


def escaped(body):
    """A body as a part of one line."""
    return body.decode("latin-1").translate(ESCAPES).encode()


# ---- what is changed

def changed_playlist(rng, seeds, text):
    if rng.random() < 0.05:
        text = joined(rng, text, rng.choice(seeds.playlists))
    return changed(rng, text, PLAYLIST)


def attribute_list(rng):
    """Attributes of the grammar, in any order, of any number up to a few more than may be."""
    count = rng.choice((1, 2, 2, 3, 3, 4, 5, 8, 63, 64, 65, 66)) if rng.random() < 0.5 else 3
    names = rng.sample(ATTRIBUTES[:18], min(count, 18)) + [b"X-%d" % n for n in range(count - 18)]
    return b",".join(name + b"=" + rng.choice(ATTRIBUTES[18:]) for name in names)


def with_attributes(rng, text):
    """The playlist with one more tag that has attributes, or with other ones in one that it has."""
    lines = text.split(b"\n")
    has = [n for n, line in enumerate(lines) if line.startswith((b"#EXT-X-DATERANGE:", b"#EXT-X-KEY:", b"#EXT-X-MAP:"))]
    if has and rng.random() < 0.6:
        at = rng.choice(has)
        tag, _, given = lines[at].partition(b":")
        lines[at] = tag + b":" + (given if rng.random() < 0.6 else attribute_list(rng))
    else:
        at = rng.randrange(len(lines))
        tag = rng.choice((b"#EXT-X-DATERANGE", b"#EXT-X-DATERANGE", b"#EXT-X-KEY", b"#EXT-X-MAP"))
        lines.insert(at, tag + b":" + attribute_list(rng))
    tag, _, given = lines[at].partition(b":")
    lines[at] = tag + b":" + changed(rng, given, ATTRIBUTES).replace(b"\n", b"")
    return b"\n".join(lines)


def changed_decisions(rng, seeds, text):
    if rng.random() < 0.05:
        text = joined(rng, text, rng.choice(seeds.decisions))
    return changed(rng, text, DECISIONS)


def changed_section(rng, seeds):
    """A section with changed digits, or with changed bytes behind its digits."""
    digits = rng.choice(seeds.sections).encode()
    if rng.random() < 0.6:
        section = bytes.fromhex(digits[2:].decode())
        other = bytes.fromhex(rng.choice(seeds.sections)[2:])
        section = joined(rng, section, other) if rng.random() < 0.1 else section
        text = changed(rng, section, [b"\x00", b"\xff", b"\x7f\xff\xfe", b"\xfc\x30", b"\x0f\xff", bytes(9), b"CUEI"])
        return (b"0x", b"0X")[rng.randrange(2)] + text.hex().encode()
    text = changed(rng, digits, [b"0x", b"0X", b"FC", b"fc30", b"0", b"ff", b" ", b"g", b"_", b"+", b"-"])
    return text.decode("utf-8", "replace").replace("\r", "").replace("\n", "").encode()


def with_length(rng, request):
    """The request, with the length of its body made right again, but for some."""
    head, gap, body = request.partition(b"\r\n\r\n")
    if not gap or not body or rng.random() < 0.3:
        return request
    return LENGTH.sub(lambda it: it[1] + b"%d" % len(body), head, count=1) + gap + body


def changed_request(rng, seeds):
    """A request with changes anywhere, in its head alone, or in its body alone; or two that run together."""
    request = rng.choice(seeds.requests)
    head, gap, body = request.partition(b"\r\n\r\n")
    how = rng.random()
    if how < 0.4 or not body:
        made = with_length(rng, changed(rng, head, REQUESTS) + gap + body)
    elif how < 0.8:
        words = DECISIONS if body.startswith(b"{") else PLAYLIST
        made = with_length(rng, head + gap + changed(rng, body, words))
    else:
        made = changed(rng, request, REQUESTS)
    if rng.random() < 0.05:
        made += rng.choice(seeds.requests)
    return CHANNEL.search(request)[1], made


# ---- whole inputs

def refreshes(kind, decided, before, text):
    asked = [CHANNEL_LINE]
    if decided is not None:
        asked.append(b"decide " + escaped(decided))
    if before is not None:
        asked.append(b"refresh " + escaped(before))
    asked += [b"playlist", b"refresh " + escaped(text), b"playlist", b"known"]
    return Input(kind, "channels", asked, len(asked) - 3)


def playlist(rng, seeds):
    decided, before, text = rng.choice(seeds.steps)
    return refreshes("playlist", decided, before, changed_playlist(rng, seeds, text))


def attributes(rng, seeds):
    decided, before, text = rng.choice(seeds.steps)
    return refreshes("attributes", decided, before, with_attributes(rng, text))


def one_channel(rng, seeds):
    """A refresh or decisions for the channel that all of these go to, whatever it was given before."""
    if rng.random() < 0.7:
        line = b"refresh " + escaped(changed_playlist(rng, seeds, rng.choice(seeds.playlists)))
    else:
        line = b"decide " + escaped(changed_decisions(rng, seeds, rng.choice(seeds.decisions)))
    return Input("one channel", "one_channel", [line, b"playlist"], 0)


def decisions(rng, seeds):
    body = changed_decisions(rng, seeds, rng.choice(seeds.decisions))
    return Input("decisions", "channels", [CHANNEL_LINE, b"decide " + escaped(body), b"withdraw b1", b"playlist"], 1)


def section(rng, seeds):
    return Input("section", "sections", [b"section " + escaped(changed_section(rng, seeds))], 0)


def put(target, body):
    return b"PUT %s HTTP/1.1\r\nContent-Length: %d\r\n\r\n%s" % (target, len(body), body)


def get(target):
    return b"GET %s HTTP/1.1\r\nHost: h\r\n\r\n" % target


def serve(request, devices=b"8192 0 65536 0"):
    return b"serve " + devices + b" " + escaped(request)


def devices_of(rng, length):
    """How many bytes a call moves, and which one fails. Few bytes are left to short requests, since a head is looked at anew
    with each read."""
    read = rng.choice((8192, 8192, 100, 7, 1) if length < 400 else (8192, 4096, 1000))
    failing = rng.randrange(1, 5) if rng.random() < 0.1 else 0
    write = rng.choice((65536, 65536, 1000, 10))
    refused = rng.randrange(1, 4) if rng.random() < 0.1 else 0
    return b"%d %d %d %d" % (read, failing, write, refused)


def on_edge(kind, rng, step, name, request):
    decided, before, _ = step
    route = b"/channels/" + name
    asked = [b"edge", serve(put(route, BODY))]
    if decided is not None:
        asked.append(serve(put(route + b"/decisions", decided)))
    if before is not None:
        asked.append(serve(put(route + b"/origin", before)))
    shown = serve(get(route + b"/live.m3u8"))
    asked += [shown, serve(request, devices_of(rng, len(request))), shown, serve(get(route + b"/why"))]
    return Input(kind, "edge", asked, len(asked) - 3)


def connection(rng, seeds):
    name, request = changed_request(rng, seeds)
    return on_edge("connection", rng, rng.choice(seeds.steps), name, request)


def pushed(rng, seeds):
    """A changed playlist or decision file over a good connection."""
    step = rng.choice(seeds.steps)
    if rng.random() < 0.7:
        request = put(b"/channels/a/origin", changed_playlist(rng, seeds, step[2]))
    else:
        request = put(b"/channels/a/decisions", changed_decisions(rng, seeds, rng.choice(seeds.decisions)))
    return on_edge("pushed", rng, step, b"a", request)


# How many of 20 inputs are of each kind.
KINDS = [playlist] * 4 + [attributes] * 3 + [one_channel] * 2 + [decisions] * 3 + [section] * 4 + [connection] * 2 + [pushed] * 2


def input_of(seed, number, seeds):
    """The input of this number."""
    rng = Random(seed << 40 | number)
    if number % LARGE_EVERY == LARGE_EVERY - 1:
        return large(rng, number // LARGE_EVERY)
    return KINDS[number % len(KINDS)](rng, seeds)


def large(rng, turn):
    """A text as large as it may be, or a little larger, with a change or none."""
    word, made = LARGE[turn % len(LARGE)]
    text = made(rng)
    if rng.random() < 0.5:
        change = rng.choice((changes.flip, changes.cut, changes.put_byte, changes.number))
        text = change(rng, text, ())
    if rng.random() < 0.5:
        target = b"/channels/a/decisions" if word == b"decide" else b"/channels/a/origin"
        # (in a process of its own: what the C library holds back after 4 MiB is no memory that an edge keeps)
        return on_edge("large on an edge", rng, (None, None, b""), b"a", put(target, text))._replace(program="large")
    asked = [CHANNEL_LINE, b"playlist", word + b" " + escaped(text), b"playlist", b"known"]
    return Input("large", "large", asked, 2)
