"""What the tests of the plant share: fake origins and controllers, programs that are started and ended, playlists by hand."""
import http.server
import os
import re
import shutil
import socket
import subprocess
import sys
import tempfile
import threading
import time
import urllib.request
from datetime import datetime, timedelta, timezone

PLANT = os.path.dirname(os.path.dirname(os.path.abspath(__file__)))
PYTHON = "/usr/bin/python3"
OUT = "0xFC302000000000000000FFF00F05000000017FFFFE002932E00001" + "0" * 16
BEGIN = datetime(2024, 5, 1, 12, 0, 0, tzinfo=timezone.utc)


def lacks(module):
    """Whether Debian's Python lacks a module."""
    return subprocess.run([PYTHON, "-c", f"import {module}"], capture_output=True, check=False).returncode != 0


def instant(seconds):
    """The instant so many seconds after BEGIN."""
    return (BEGIN + timedelta(seconds=seconds)).strftime("%Y-%m-%dT%H:%M:%S.%f")[:-3] + "Z"


def listed(first, last, breaks=(), target=2, name="s", discontinuities=0):
    """A list of segments `first` to `last` of `target` seconds with dates, and a date range for each (ID, start, length) of `breaks`."""
    ranges = [f'#EXT-X-DATERANGE:ID="{name_}",START-DATE="{instant(start)}",DURATION={length},SCTE35-OUT={OUT}' for name_, start, length in breaks]
    head = ["#EXTM3U", "#EXT-X-VERSION:3", f"#EXT-X-TARGETDURATION:{target}", f"#EXT-X-MEDIA-SEQUENCE:{first}"]
    lines = [f"#EXTINF:{target},\n{name}{number}.ts" for number in range(first, last + 1)]
    return "\n".join([*head, *ranges, f"#EXT-X-PROGRAM-DATE-TIME:{instant(first * target)}", *lines, ""])


def decided(*pods, seconds="2"):
    """A decision file: for each (ID, number of segments) a pod with URIs of the ID."""
    breaks = ",".join('{"id":"%s","ads":[{"segments":[%s]}]}' % (name, ",".join(
        '{"uri":"http://ads.example/%s-%d.ts","duration":"%s"}' % (name, n, seconds) for n in range(count))) for name, count in pods)
    return '{"breaks":[%s]}' % breaks


FALLBACK = '{"fallback":{"ads":[{"segments":[{"uri":"http://ads.example/f-0.ts","duration":"2"}]}]}}'


ALONE = """import importlib, sys
sys.path.insert(0, sys.argv[1])
from tools import Room
with Room(None) as room:
    getattr(importlib.import_module(sys.argv[2]), sys.argv[3]).alone(room)
"""


def apart(test):
    """A test that reckons for long, in a process of its own: the others beside it wait for clocks."""
    def run(room):
        words = ["nice", PYTHON, "-B", "-c", ALONE, os.path.join(PLANT, "tests"), test.__module__, test.__name__]
        done = subprocess.run(words, capture_output=True, text=True, check=False, stdin=subprocess.DEVNULL)
        assert done.returncode == 0, done.stderr[-3000:]
    run.alone = test
    return run


class FakeServer:
    """A server on loopback that answers by `answer(method, path, body, fields)`: (status, fields, body), or None for no answer."""

    def __init__(self, port=0):
        self.asked, self.lock = [], threading.Lock()
        outer = self

        class Handler(http.server.BaseHTTPRequestHandler):
            protocol_version = "HTTP/1.1"

            def handle_any(self):
                length = int(self.headers.get("Content-Length") or 0)
                body = self.rfile.read(length)
                with outer.lock:
                    outer.asked.append((self.command, self.path, body))
                said = outer.answer(self.command, self.path, body, self.headers)
                if said is None:
                    self.close_connection = True
                    return
                outer.write(self, *said)

            do_GET = do_PUT = do_POST = do_DELETE = do_HEAD = handle_any

            def log_message(self, *_):
                pass

        class Server(http.server.ThreadingHTTPServer):
            daemon_threads = True

            def handle_error(self, *_):
                pass  # (a client that went away)

        self.server = Server(("127.0.0.1", port), Handler)
        self.port = self.server.server_port
        threading.Thread(target=self.server.serve_forever, args=(0.05,), daemon=True).start()

    def answer(self, method, path, body, fields):
        raise NotImplementedError

    def write(self, handler, status, fields, body):
        handler.send_response(status)
        for name, value in fields.items():
            handler.send_header(name, value)
        if "Content-Length" not in fields and status not in (204, 304):
            handler.send_header("Content-Length", str(len(body)))
        handler.end_headers()
        if handler.command != "HEAD":
            handler.wfile.write(body)

    def count(self, method, path):
        """How often it was asked so."""
        with self.lock:
            return sum(it[:2] == (method, path) for it in self.asked)

    def close(self):
        self.server.shutdown()
        self.server.server_close()


class FakeOrigin(FakeServer):
    """An origin of one list at /index.m3u8: `text` with its ETag, or `status`, or `mode`: `cut` within a line, `short` of its
    Content-Length, `drip` a byte in 0.2 s, `silent`."""

    def __init__(self, text="", port=0):
        self.text, self.status, self.mode = text, 200, ""
        super().__init__(port)

    @property
    def url(self):
        return f"http://127.0.0.1:{self.port}/index.m3u8"

    def answer(self, method, path, body, fields):
        data, tag = self.text.encode(), f'"{hash(self.text)}"'
        if self.mode == "silent":
            time.sleep(3)
            return None
        if self.mode == "moved" and path == "/index.m3u8":
            return 302, {"Location": "/other.m3u8"}, b""
        if self.status != 200:
            return self.status, {}, b"<html>away</html>"
        if fields.get("If-None-Match") == tag and not self.mode:
            return 304, {"ETag": tag}, b""
        if self.mode == "cut":
            return 200, {"ETag": tag}, data[:-3]
        return 200, {"ETag": tag, "Content-Length": str(len(data))}, data

    def write(self, handler, status, fields, body):
        if self.mode == "short":
            body = body[: len(body) // 2]
            handler.close_connection = True
        if self.mode == "drip":
            super().write(handler, status, fields, body[:10])
            try:
                for byte in body[10:]:
                    time.sleep(0.2)
                    handler.wfile.write(bytes([byte]))
            except OSError:
                handler.close_connection = True
            return
        super().write(handler, status, fields, body)


class FakeController(FakeServer):
    """A controller that takes everything, but for `refusals`: (method, end of the path, with the channel's name or without) to a list of
    (status, body) to answer first."""

    def __init__(self, port=0):
        self.refusals, self.channels = {}, set()
        super().__init__(port)

    @property
    def url(self):
        return f"http://127.0.0.1:{self.port}"

    def answer(self, method, path, body, fields):
        name = path.split("/")[2]
        what = path.split("/")[3] if path.count("/") > 2 else ""
        waiting = self.refusals.get((method, f"{name}/{what}")) or self.refusals.get((method, what))
        if waiting:
            said = waiting.pop(0)
            if said is None:
                time.sleep(2.5)
                return None
            return said[0], {}, said[1].encode()
        if what and name not in self.channels:
            return 404, {}, b"not found\n"
        if method == "DELETE":
            self.channels.discard(name)
            return 204, {}, b""
        if not what:
            is_there = name in self.channels
            self.channels.add(name)
            return (409, {}, b"channel exists\n") if is_there else (201, {}, b"")
        return 204, {}, b""

    def puts(self, what):
        """The bodies of the PUTs to the channel's `what`."""
        with self.lock:
            return [body for method, path, body in self.asked if method == "PUT" and path.endswith(f"/{what}")]


class SlowController(FakeController):
    """A controller that takes 20 ms for each decision."""

    def answer(self, method, path, body, fields):
        time.sleep(0.02 if path.endswith("/decisions") else 0)
        return super().answer(method, path, body, fields)


class RulesController(FakeServer):
    """A controller that answers by the rules (adsplice_rules). The channels of the names `away` have no way to it: 502. Of requests whose
    paths have the end `lost` the next answer doesn't arrive."""

    def __init__(self, port=0):
        sys.path.insert(0, PLANT)
        from adsplice_rules.edge import Edge
        self.edge, self.away, self.lost, self.one_by_one = Edge(), set(), "", threading.Lock()
        super().__init__(port)

    @property
    def url(self):
        return f"http://127.0.0.1:{self.port}"

    def answer(self, method, path, body, fields):
        from adsplice_rules.edge import Request
        if path.split("/")[2] in self.away:
            return 502, {}, b"<html>"
        with self.one_by_one:
            reply = self.edge.answer(Request(method, path, body))
        if self.lost and path.endswith(self.lost):
            self.lost = ""
            return None
        return reply.status, {}, reply.body.encode()

    def kill(self):
        """Its process is killed and started again: it has no channel."""
        from adsplice_rules.edge import Edge
        with self.one_by_one:
            self.edge = Edge()

    def shown(self, name):
        """The written playlist of a channel; empty if it has none."""
        status, _, body = self.answer("GET", f"/channels/{name}/live.m3u8", b"", {})
        return body.decode() if status == 200 else ""


class Viewers:
    """What the viewers of one channel have: for each media number the URI and the discontinuity number (RFC 8216, 6.2.1)."""

    def __init__(self):
        self.had = {}

    def see(self, text):
        """They load the written playlist `text`, if there is one; raises if it contradicts what they have."""
        if not text:
            return
        media, steps = (int((re.search(rf"#EXT-X-{it}-SEQUENCE:(\d+)", text) or (0, 0))[1]) for it in ("MEDIA", "DISCONTINUITY"))
        for line in text.splitlines():
            if line == "#EXT-X-DISCONTINUITY":
                steps += 1
            elif line and line[0] != "#":
                had = self.had.setdefault(media, (line, steps))
                assert had == (line, steps), f"media number {media} was {had}, and is {(line, steps)}:\n{text}"
                media += 1


def free_port():
    """A port that nothing listens on."""
    with socket.socket() as it:
        it.bind(("127.0.0.1", 0))
        return it.getsockname()[1]


def get(url):
    """The status and the text of a GET."""
    try:
        with urllib.request.urlopen(url, timeout=10) as it:
            return it.status, it.read().decode()
    except urllib.error.HTTPError as it:
        return it.code, it.read().decode()
    except OSError:
        return 0, ""


def put(url, body, method="PUT"):
    """The status of a request with a body."""
    try:
        with urllib.request.urlopen(urllib.request.Request(url, body, method=method), timeout=10) as it:
            return it.status
    except urllib.error.HTTPError as it:
        return it.code


def until(check, seconds=90, what="it"):
    """Waits until `check()` holds, and answers what it answered; raises if it doesn't within that time."""
    end = time.monotonic() + seconds
    while time.monotonic() < end:
        if found := check():
            return found
        time.sleep(0.02)
    raise AssertionError(f"{what} didn't come within {seconds} s")


class Room:
    """A folder and processes that end with a test."""

    def __init__(self, program):
        self.program, self.running, self.servers = program, [], []
        self.path = tempfile.mkdtemp(prefix="adsplice-plant-")

    def __enter__(self):
        return self

    def __exit__(self, *_):
        for it in self.running:
            if it.poll() is None:
                it.kill()
            it.wait()
            if it.stdout:
                it.stdout.close()
        for it in self.servers:
            it.close()
        shutil.rmtree(self.path, ignore_errors=True)

    def server(self, it):
        """Keeps a fake server to the end of the test."""
        self.servers.append(it)
        return it

    def write(self, name, text):
        """Writes a file aside and renames it; answers its path."""
        path = os.path.join(self.path, name)
        os.makedirs(os.path.dirname(path), exist_ok=True)
        with open(f"{path}.new", "w", encoding="utf-8") as it:
            it.write(text)
        os.replace(f"{path}.new", path)
        return path

    def adsplice(self, port):
        """Starts the built program, and waits until it listens."""
        it = subprocess.Popen([self.program, "live", str(port), "4294967295"], stdin=subprocess.DEVNULL, stdout=subprocess.DEVNULL, stderr=subprocess.DEVNULL)
        self.running.append(it)
        until(lambda: get(f"http://127.0.0.1:{port}/")[0] == 404, 10, "adsplice")
        return it

    def feed(self, *words):
        """Starts a feed with these words."""
        return Feed(self, words)

    def run(self, name, *words, **more):
        """Runs a program of the plant to its end: its status, standard output and standard error."""
        more = {"capture_output": True, "text": True, "timeout": 60, **more}
        it = subprocess.run([PYTHON, f"{PLANT}/{name}", *words], check=False, stdin=subprocess.DEVNULL, **more)
        return it.returncode, it.stdout, it.stderr


class Feed:
    """A running feed, and the lines that it printed."""

    def __init__(self, room, words):
        self.process = subprocess.Popen([PYTHON, f"{PLANT}/adsplice-feed", *words], stdin=subprocess.DEVNULL, stdout=subprocess.PIPE,
                                        stderr=subprocess.STDOUT, text=True)
        room.running.append(self.process)
        self.lines = []
        threading.Thread(target=self.read, daemon=True).start()

    def read(self):
        for line in self.process.stdout:
            self.lines.append(line.rstrip("\n"))

    def sees(self, pattern, seconds=20, after=0):
        """Waits for a line that has a pattern, of those from place `after` on; answers its place."""
        def find():
            places = [n for n, line in enumerate(list(self.lines)) if n >= after and re.search(pattern, line)]
            return places[0] + 1 if places else None

        try:
            return until(find, seconds, pattern)
        except AssertionError as fault:
            raise AssertionError(f"{fault}; the feed said:\n  " + "\n  ".join(self.lines)) from None

    def end(self, signal_number):
        """Ends it by a signal, and answers its status."""
        self.process.send_signal(signal_number)
        return self.process.wait(10)
