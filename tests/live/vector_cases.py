"""The cases of tests/vectors/live.jsonl, which a model of the rules made: HTTP requests to one channel with the replies
that are owed, of which the bodies are taken here."""
import base64
import json
from decimal import Decimal
from pathlib import Path

from events import Case

VECTORS = Path(__file__).resolve().parent.parent / "vectors/live.jsonl"


def split_message(text):
    """The first line of an HTTP message, and its body."""
    message = base64.b64decode(text)
    head, _, body = message.partition(b"\r\n\r\n")
    return head.split(b"\r\n")[0].decode(), body


def numbers_of(playlist):
    """The first media sequence number of a playlist and the count of its segments."""
    lines = [line.rstrip(b"\r") for line in playlist.split(b"\n")]
    first = [line.partition(b":")[2] for line in lines if line.startswith(b"#EXT-X-MEDIA-SEQUENCE:")]
    return int(first[0]) if first else 0, sum(1 for line in lines if line.strip(b" ") and not line.startswith(b"#"))


def steps_of(vector):
    """For each connection what is asked of the channel and with which body, whether it is accepted, and the reply's body."""
    for connection in vector["connections"]:
        (asked, body), (answered, reply) = split_message(connection["request"]), split_message(connection["reply"])
        yield asked.split(" ")[1].rsplit("/", 1)[1], body, answered.split(" ")[1][0] == "2", reply


def vector_case(vector):
    """A case of one channel. An accepted refresh is followed by a read of the playlist, of which the counts are."""
    case, steps = Case(vector["name"]), list(steps_of(vector))
    shown = -1
    for place, (what, body, is_good, reply) in enumerate(steps):
        fault = reply.decode().rstrip("\n")
        if what == "live":
            told = json.loads(body)
            case.channel(told["base"], int(Decimal(told["tolerance"]) * 10**9), "ok" if is_good else fault)
        elif what == "decisions":
            case.decide(body, "ok" if is_good else fault)
        elif what == "origin" and is_good:
            first, count = numbers_of(body)
            fresh = max(0, min(count, first + count - 1 - shown))
            shown = max(shown, first + count - 1)
            case.refresh(body, "ok {} {} {}".format(*numbers_of(steps[place + 1][3]), fresh))
        elif what == "origin":
            case.refresh(body, fault)
        elif what == "live.m3u8":
            case.playlist(reply if is_good else None)
        else:
            case.known(*(line.replace("\t", " ") for line in reply.decode().split("\n")[:-1]))
    return case


def vector_cases():
    return [vector_case(json.loads(line)) for line in VECTORS.read_text().splitlines()]
