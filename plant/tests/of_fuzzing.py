"""Tests of grown inputs at the rim: a short run of them, that it finds what is wrong, and inputs that once broke a promise."""
import random
import re
import subprocess
import sys
from pathlib import Path

import attacks
from grown import Grower
from tools import PLANT, PYTHON, FakeServer

sys.path.insert(0, PLANT)

NEEDS = ("httpx",)
SECONDS = 60


def test_grown_inputs_break_no_promise(room):
    words = ["nice", PYTHON, "-B", f"{PLANT}/tests/fuzzed.py", "--seconds", str(SECONDS)]
    done = subprocess.run(words, capture_output=True, text=True, check=False, stdin=subprocess.DEVNULL, timeout=300)
    found = re.fullmatch(r"fuzzed: ([0-9]+) inputs of seed [0-9]+, 0 broke a promise", done.stdout.strip().rpartition("\n")[2])
    assert done.returncode == 0 and found and int(found[1]) > 200, (done.stdout[-3000:], done.stderr[-1000:])


# What is made wrong, by the kind of inputs that has to see it.
FAULTS = {
    "lists": "origin.over_bound = lambda *it: [][0]", "masters": "masters.strays = lambda *it: ''", "redirects": "web.strays = lambda *it: ''\nweb.Reach.refusal = lambda *it: ''",
    "door": "admission.keep = lambda folder, name, body: bool((folder.parent / name).write_bytes(body))", "decided": "judge.judge = lambda body: None",
    "folders": "folders.DecisionFolder.judge = lambda self, name, folder, found: found.update({name: (0, 0, 0)})", "settings": "settings.stated = lambda text: location.Url(text + ' x')"}
SPOILED = """import sys
sys.path[:0] = sys.argv[1:3]
import fuzzed
from adsplice_plant import admission, folders, judge, location, masters, origin, settings, web
exec(sys.argv[3])
print(*fuzzed.run(7, 5, sys.argv[4], None))
"""


def test_what_is_wrong_is_found(room):
    for kind, fault in FAULTS.items():
        done = subprocess.run(["nice", PYTHON, "-B", "-c", SPOILED, f"{PLANT}/tests", PLANT, fault, kind], capture_output=True, text=True, check=False, timeout=200)
        count, broken = map(int, done.stdout.strip().rpartition("\n")[2].split())
        assert broken and count, (kind, done.stdout[-500:], done.stderr[-500:])


def test_inputs_grow_and_stay_bounded(room):
    grower = Grower(random.Random(1), attacks.SMALL_LISTS)
    inputs = [grower.input() for _ in range(2000)]
    assert len(set(inputs)) > 1000 and max(map(len, inputs)) <= 65_536 and b"" in {it[:0] for it in inputs}
    before = len(grower.seeds)
    for number in range(3000):
        grower.keep(b"x", f"line {number} has 'something {number}'")
        grower.keep(b"y", chr(0x4E00 + number))
    assert before < len(grower.seeds) <= 1000


class Answering(FakeServer):
    """A server that leads to `location`."""

    def answer(self, method, path, body, fields):
        return 302, {"Location": self.location}, b""


def test_locations_and_answers_that_once_raised_are_told(room):
    import socket
    import threading

    from adsplice_plant.web import Client
    server = room.server(Answering())
    for server.location in ("ht]", "http://[", "//[::1", "http://a:b:c/"):
        found = Client(2).ask("GET", f"http://127.0.0.1:{server.port}/i.m3u8")
        assert found.status == 0 and found.why.isprintable() and found.why, (server.location, found)
    with socket.create_server(("127.0.0.1", 0)) as other:
        def serve():
            with other.accept()[0] as it:
                it.recv(65_536)
                it.sendall(b"HTTP/1\x1b[2J 200 OK\r\n\r\n")
        thread = threading.Thread(target=serve)
        thread.start()
        found = Client(2).ask("GET", f"http://127.0.0.1:{other.getsockname()[1]}/")
        thread.join()
    assert found.status == 0 and found.why.isprintable() and found.why, found


def test_paths_that_no_file_has_are_refused(room):
    from adsplice_plant.config_file import read_file
    for name in ("master", "keep", "decisions", "fallback", "origin"):
        for path in (f"{room.path}/{'a' * 256}", f"{room.path}/{'a/' * 2100}b", f"{room.path}/a\0b"):
            said = {"at": "http://h", "origin": "http://h/i.m3u8", "base": "http://h/"} | {name: path}
            faults = []
            read_file(Path(room.write("feed.ini", "[news]\n" + "".join(f"{key} = {value}\n" for key, value in said.items()))), faults)
            assert len(faults) == 1 and ("no file has the path" in faults[0][1] or "a sign that isn't printed" in faults[0][1]), (name, faults)
