"""1,002 splice sections of tests/sections/sections.jsonl, each with a valid CRC_32 and its fields as two other readers of
SCTE 35 tell them. Of a section these fields have to be printed, and the section written again with its own CRC_32 has to
be the very bytes."""
import json
from pathlib import Path

VECTORS = Path(__file__).resolve().parent.parent / "sections/sections.jsonl"
HEADING = ("pts_adjustment", "cw", "tier")


def heading(vector):
    """The heading's fields: of the two vectors that don't name them, from the bytes."""
    section = bytes.fromhex(vector["hex"])
    said = {
        "pts_adjustment": int.from_bytes(section[4:9]) % 2**33,
        "cw": section[9],
        "tier": int.from_bytes(section[10:12]) >> 4,
    }
    return [f"{name}={vector['fields'].get(name, said[name])}" for name in HEADING]


def time(pts, immediate):
    """A time, which may be left open if the splice isn't immediate."""
    return [] if immediate else [f"pts={'open' if pts is None else pts}"]


def target(fields):
    immediate = fields["immediate"]
    if fields["program"]:
        return ["program"] + time(fields.get("pts"), immediate)
    return [word for tag, pts in fields["components"] for word in [f"component={tag}"] + time(pts, immediate)]


def body(fields):
    if fields["cancel"]:
        return ["cancelled"]
    duration = [f"{name}={fields[name]}" for name in ("auto", "ticks") if fields["duration_flag"]]
    ids = [f"{name}={fields[name]}" for name in ("upid", "avail", "avails")]
    return [f"out={fields['out']}", f"immediate={fields['immediate']}"] + target(fields) + duration + ids


def descriptors(section):
    """The splice descriptors: they end where CRC_32 begins, and behind a splice_insert comes their length."""
    begin = 14 + (int.from_bytes(section[11:13]) & 0xFFF) + 2
    return ["descriptors=0x" + section[begin:-4].hex()] if begin < len(section) - 4 else []


def section_line(vector):
    """The question and the answer for a section."""
    fields, section = vector["fields"], bytes.fromhex(vector["hex"])
    words = heading(vector) + [f"event={fields['event']}"] + body(fields) + descriptors(section)
    words += [f"stated={int.from_bytes(section[-4:])}", "crc=0", "0x" + vector["hex"]]
    return "section 0x" + vector["hex"], " ".join(words)


LINES = [section_line(json.loads(line)) for line in VECTORS.read_text().splitlines()]
