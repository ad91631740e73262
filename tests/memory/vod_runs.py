"""Runs of `adsplice vod`, and of a server that begins, to which memory is refused: the words, the input and the decision
file of each, with what it answers if none is refused."""
import base64
import json
import os
import subprocess
import tempfile
from collections import namedtuple

from server import free_port
from shim import WAYS

TESTS = os.path.dirname(os.path.dirname(os.path.abspath(__file__)))
TOP = os.path.dirname(TESTS)
SECONDS = 60
BASE = "http://origin.example/ch/index.m3u8"
OUT_OF_MEMORY = (1, b"", b"E5 OutOfMemory\n")
PLAIN = b"#EXTM3U\n#EXT-X-TARGETDURATION:10\n#EXTINF:10,\ns0.ts\n#EXT-X-ENDLIST\n"

# Of the vectors: plain and rich playlists, breaks that are filled, faults early and late, no words at all.
VECTORS = {
    "worked": ("plain", "date-range-and-times", "sixteen-formats", "seventeen-formats", "key-without-method",
               "uri-without-duration", "empty", "no-words", "bad-base"),
    "full": ("full-dev1-401", "full-dev1-526"),
    "breaks": ("breaks-dev2-569", "breaks-dev2-650"),
}
# The word DECISIONS stands for a file with these bytes, and PORT for a port that nobody has.
Run = namedtuple("Run", "name words input decisions owed")


def read_file(*path):
    with open(os.path.join(TOP, *path), "rb") as it:
        return it.read()


def run_of_vector(vector):
    decided = base64.b64decode(vector["decisions"]) if "decisions" in vector else None
    owed = vector["status"], base64.b64decode(vector["stdout"]), vector["stderr"].encode()
    return Run(vector["name"], vector["args"], base64.b64decode(vector["stdin"]), decided, owed)


def runs_of_vectors():
    for file, names in VECTORS.items():
        lines = read_file("tests", "vectors", f"{file}.jsonl").splitlines()
        vectors = {it["name"]: it for it in map(json.loads, lines)}
        yield from (run_of_vector(vectors[name]) for name in names)


def decided(name, decisions, fault):
    """A run with a decision file that is refused."""
    return Run(name, ["vod", BASE, "DECISIONS"], PLAIN, decisions, (1, b"", fault + b"\n"))


def runs():
    return [*runs_of_vectors(), *own_runs()]


def own_runs():
    example = [read_file("examples", "vod", it) for it in ("playlist.m3u8", "decisions.json", "written.m3u8")]
    yield Run("two breaks of an encrypted programme", ["vod", BASE, "DECISIONS"], *example[:2], (0, example[2], b""))
    yield decided("a decision file that is no JSON", b"{", b"J1 NotJson")
    yield decided("a decision file of another shape", b"[]", b"J2 Shape")
    yield decided("a pod without segments", b'{"breaks":[{"id":"b1","ads":[{"segments":[{"uri":"http://a.example/a.ts",'
                  b'"duration":"1"}]},{"segments":[]}]}]}', b"J6 EmptyPod break 0 ad 1")
    yield decided("a withdrawal of nothing", b'{"withdraw":"b1"}', b"J11 Unknown")
    yield Run("a decision file that isn't there", ["vod", BASE, os.path.join(TESTS, "no-such-file")], PLAIN, None,
              (1, b"", b"cannot read DECISIONS\n"))
    yield Run("a server begins", ["live", "PORT", "0"], b"", None, (0, b"", b""))


def answer(program, control, run, words, first, most):
    """What the program answers if so many calls from the first-th on are refused, and how many were."""
    control.refuse(first, most)
    ran = subprocess.run([program, *words], input=run.input, capture_output=True, timeout=SECONDS,
                         env=os.environ | control.environment)
    return (ran.returncode, ran.stdout, ran.stderr), control.stop()


def differences(program, control, ports, run, way):
    """How many runs were refused memory before the first that wasn't, and what they answered that isn't owed. A run may do
    without what it was refused if it asks again and is given it, if its fault needs no memory, or if only a next refresh would need
    it: then it answers all that is owed."""
    with tempfile.NamedTemporaryFile() as file:
        file.write(run.decisions or b"")
        file.flush()
        named = {"DECISIONS": file.name, "PORT": str(free_port(ports))}
        words = [named.get(word, word) for word in run.words]
        found, first, refused = [], 0, 1
        while refused:
            first += 1
            answered, refused = answer(program, control, run, words, first, WAYS[way])
            may_be = [run.owed, OUT_OF_MEMORY] if refused else [run.owed]
            if answered not in may_be:
                found.append(f"allocation {first}: status {answered[0]}, {answered[1][:60]}, {answered[2][:80]}")
    return first - 1, found
