"""The good ones that inputs are changed from: what the repository's own tests give to the programs."""
import base64
import functools
import json
import re
import subprocess
import tempfile
from pathlib import Path
from random import Random

TOP = Path(__file__).resolve().parent.parent.parent
VECTORS = TOP / "tests/vectors"
CHANNEL = re.compile(rb"/channels/([a-z0-9-]{1,32})[/ ]")


def unescaped(text):
    """The bytes that a BODY of the test driver stands for."""
    named = {"n": b"\n", "r": b"\r", "\\": b"\\"}
    found = []
    for part in re.findall(r"\\x[0-9a-f]{2}|\\.|[^\\]+", text):
        if part.startswith("\\x") and len(part) == 4:
            found.append(bytes.fromhex(part[2:]))
        elif part.startswith("\\"):
            found.append(named.get(part[1], part[1:].encode()))
        else:
            found.append(part.encode())
    return b"".join(found)


def vectors(name):
    return [json.loads(line) for line in (VECTORS / f"{name}.jsonl").read_text().splitlines()]


def steps_of_vectors():
    """Decisions (or None) and a playlist, for each accepted run of `vod`; no refresh comes before it."""
    for name in ("plain", "full", "times", "worked", "breaks"):
        for vector in vectors(name):
            if vector["status"] == 0 and "stdin" in vector:
                decided = vector.get("decisions")
                yield (base64.b64decode(decided) if decided else None), None, base64.b64decode(vector["stdin"])


@functools.cache
def channel_events():
    """The lines of each case of channels that tests/run_channels gives."""
    with tempfile.TemporaryDirectory() as folder:
        subprocess.run([str(TOP / "tests/driver_lines"), folder], check=True)
        cases = sorted(it for it in Path(folder).iterdir() if it.suffix != ".stdout")
        return [line for it in cases for line in it.read_text().splitlines()]


def steps_of_channels(events):
    """Decisions (or None), a refresh and the one after it."""
    decided, before = None, None
    for line in events:
        word, _, rest = line.partition(" ")
        if word == "channel":
            decided, before = None, None
        elif word == "decide":
            decided = unescaped(rest)
        elif word == "refresh":
            body = unescaped(rest)
            if body.startswith(b"#EXTM3U"):
                yield decided, before, body
                before = body


def requests():
    for name in ("http", "live"):
        for vector in vectors(name):
            for connection in vector["connections"]:
                yield base64.b64decode(connection["request"])


def some(found, most):
    """At most so many, evenly from all; texts of more than 20 KB are left to the large inputs."""
    def length(it):
        return sum(len(part or b"") for part in it) if isinstance(it, tuple) else len(it)

    small = [it for it in found if length(it) <= 20_000]
    return Random(0).sample(small, most) if len(small) > most else small


class Seeds:
    """All good ones, by kind."""

    def __init__(self):
        events = channel_events()
        vod, live = list(steps_of_vectors()), list(steps_of_channels(events))
        self.steps = some(vod, 1500) + some(live, 1500)
        self.playlists = [step[2] for step in self.steps]
        decided = {step[0] for step in vod + live if step[0]}
        decided.update(unescaped(it.partition(" ")[2]) for it in events if it.startswith("decisions {"))
        decided.add((TOP / "examples/vod/decisions.json").read_bytes())
        self.decisions = some(sorted(decided), 1000)
        self.sections = ["0x" + json.loads(line)["hex"] for line in (TOP / "tests/sections/sections.jsonl").open()]
        self.requests = [it for it in some(sorted(set(requests())), 3000) if CHANNEL.search(it)]
        for kind, found in vars(self).items():
            if not found:
                raise SystemExit(f"bench/soak: no seeds of the kind {kind}")
