"""Three machines in network namespaces, an origin whose truth is known, and viewers with a ledger of numbers: for check_replicas."""
from __future__ import annotations

import http.client
import http.server
import json
import os
import random
import re
import signal
import socketserver
import subprocess
import threading
import time
from collections.abc import Callable, Mapping
from typing import Any

OUT = "0xFC302000000000000000FFF00F05000000017FFFFE002932E00001" + "0" * 16
NET, WORLD, VIEWERS, ORIGIN = "10.77.0", "10.77.0.254", "10.77.0.100", 21000
MACHINES = (1, 2, 3)
SEGMENT, WINDOW, EVERY, LENGTH = 2, 15, 15, 5  # seconds; segments of a list, from break to break, and of a break
INIT = "import signal, time; signal.signal(signal.SIGCHLD, signal.SIG_IGN); time.sleep(10**8)"  # of a machine: it leaves no dead process behind
KINDS = ("plain", "pieces", "cue", "late ranges", "late", "again", "swap", "cue with times")


def run(*words: str, check: bool = True) -> str:
    """The output of a command."""
    return subprocess.run(words, check=check, capture_output=True, text=True).stdout


class Network:
    """A namespace for each machine, joined by a bridge in that of this process."""

    def __init__(self) -> None:
        self.names = {n: f"replicas-{os.getpid()}-{n}" for n in MACHINES}
        self.holders_of: dict[int, subprocess.Popen[Any]] = {}  # a process of each machine that holds its namespace of processes

    def inside(self, n: int) -> list[str]:
        """The words that run a command on a machine: it sees that machine's network and processes alone."""
        holder = self.holders_of[n].pid
        with open(f"/proc/{holder}/task/{holder}/children", encoding="ascii") as it:
            child = it.read().split()[0]
        return ["nsenter", f"--net=/var/run/netns/{self.names[n]}", f"--pid=/proc/{child}/ns/pid", f"--mount=/proc/{child}/ns/mnt"]

    def __enter__(self) -> Network:
        for words in (("link", "set", "lo", "up"), ("link", "add", "bridge0", "type", "bridge"), ("addr", "add", f"{WORLD}/24", "dev", "bridge0"), ("link", "set", "bridge0", "up")):
            run("ip", *words)
        for n, name in self.names.items():
            run("ip", "netns", "add", name)
            run("ip", "link", "add", f"cable{n}", "type", "veth", "peer", "name", "eth0", "netns", name)
            run("ip", "link", "set", f"cable{n}", "master", "bridge0", "up")
            for words in (("link", "set", "lo", "up"), ("addr", "add", f"{NET}.{n}/24", "dev", "eth0"), ("link", "set", "eth0", "up")):
                run("ip", "-n", name, *words)
            self.holders_of[n] = subprocess.Popen(["unshare", "--pid", "--fork", "--mount-proc", "/usr/bin/python3", "-c", INIT], stdin=subprocess.DEVNULL)
        time.sleep(0.5)
        return self

    def __exit__(self, *_: object) -> None:
        for it in self.holders_of.values():
            subprocess.run(["kill", "-9", *open(f"/proc/{it.pid}/task/{it.pid}/children", encoding="ascii").read().split()], check=False)
            it.wait()
        for name in self.names.values():
            run("ip", "netns", "del", name, check=False)

    def cable(self, n: int, state: str) -> None:
        """The cable of a machine is `up` or `down`."""
        run("ip", "link", "set", f"cable{n}", state)

    def holders(self) -> list[int]:
        """The machines that have the viewers' address."""
        return [n for n, name in self.names.items() if f"{VIEWERS}/" in run("ip", "-n", name, "addr", check=False)]


class Part:
    """A process of a machine, which may be killed, stopped and started again."""

    def __init__(self, network: Network, n: int, words: list[str], log: str, more: Mapping[str, str] | None = None) -> None:
        self.words, self.log = [*network.inside(n), *words], log
        self.more = {**os.environ, **(more or {})}
        self.process: subprocess.Popen[Any] | None = None

    def start(self) -> None:
        """Starts it, unless it runs."""
        if self.process is None or self.process.poll() is not None:
            with open(self.log, "ab") as log:
                self.process = subprocess.Popen(self.words, stdin=subprocess.DEVNULL, stdout=log, stderr=log, start_new_session=True, env=self.more)

    def signal(self, number: signal.Signals) -> None:
        """Sends it a signal, and waits for its end if that ends it."""
        if self.process is not None and self.process.poll() is None:
            try:
                os.killpg(self.process.pid, number)
            except ProcessLookupError:
                pass
            if number == signal.SIGKILL:
                self.process.wait()

    def kill(self) -> None:
        """Kills it."""
        self.signal(signal.SIGKILL)

    def stop(self) -> None:
        """Stops it."""
        self.signal(signal.SIGSTOP)

    def go_on(self) -> None:
        """It goes on."""
        self.signal(signal.SIGCONT)


# ---- the origin

def instant(seconds: float) -> str:
    """An instant as lists state it."""
    return time.strftime("%Y-%m-%dT%H:%M:%S", time.gmtime(seconds)) + f".{round(seconds * 1000) % 1000:03d}Z"


class Origin:
    """The origin of channels (each has a kind), whose programmes began at `begin`. A packager of the kind `again` begins anew each `again` seconds. Segments
    are files of the folder `media`, if that is named."""

    def __init__(self, begin: float, kinds: Mapping[str, str], again: int = 180, media: str = "") -> None:
        self.begin, self.kinds, self.again, self.media = begin, kinds, again, media
        self.asked: dict[str, list[float]] = {}  # when each player asked for segments, by the first word of its User-Agent

    def newest(self, name: str) -> int:
        """The newest segment of a channel."""
        return int((time.time() - self.begin - int(name[1:]) * 7 % 20 / 10) // SEGMENT) - 1

    def shift(self, name: str) -> int:
        """By how many segments a channel's breaks come later than each EVERY."""
        return int(name[1:]) * 3 % EVERY

    def start(self, name: str, turn: int) -> int:
        """The first segment of a break."""
        return self.shift(name) + turn * EVERY

    def turn_of(self, name: str, segment: int) -> tuple[int, int] | None:
        """The break in which a segment is, and its place in that."""
        turn, place = divmod(segment - self.shift(name), EVERY)
        return (turn, place) if turn >= 1 and place < LENGTH else None

    def text(self, name: str) -> str | None:
        """The list of a channel."""
        kind, last = self.kinds[name], self.newest(name)
        if last < 0:
            return None
        first = number = max(0, last - WINDOW + 1)
        if kind == "again" and (life := last * SEGMENT // self.again):
            begin = life * self.again // SEGMENT
            first = max(first, begin)
            number = first - begin
        lines = ["#EXTM3U", "#EXT-X-VERSION:3", f"#EXT-X-TARGETDURATION:{SEGMENT}", f"#EXT-X-MEDIA-SEQUENCE:{number}"]
        ahead = -1 if kind == "late ranges" else 5
        for turn in range(1, last // EVERY + 3) if not kind.startswith("cue") else ():
            start = self.start(name, turn)
            if start + LENGTH > first and start <= last + ahead:
                lines.append(f'#EXT-X-DATERANGE:ID="b{turn}",START-DATE="{instant(self.begin + start * SEGMENT)}",DURATION={LENGTH * SEGMENT},SCTE35-OUT={OUT}')
        for segment in range(first, last + 1):
            it = self.turn_of(name, segment)
            if kind.startswith("cue") and it and it[1] == 0:
                lines.append(f"#EXT-X-CUE-OUT:{LENGTH * SEGMENT}")
            if kind.startswith("cue") and not it and self.turn_of(name, segment - 1):
                lines.append("#EXT-X-CUE-IN")
            if kind != "cue":
                lines.append(f"#EXT-X-PROGRAM-DATE-TIME:{instant(self.begin + segment * SEGMENT)}")
            lines += [f"#EXTINF:{SEGMENT}.000,", f"p-{segment}.ts"]
        return "\n".join(lines) + "\n"

    def segment(self, path: str, player: str) -> bytes:
        """The file of the segment at `path`, for which a `player` asks; nothing if there is none."""
        found = re.fullmatch(r"/(p-[0-9]+|[abfg][12]-[0-9]+|[fg]-[0-9]+)\.ts", path)
        if not found or not self.media:
            return b""
        self.asked.setdefault(player.partition(" ")[0], []).append(time.time())
        try:
            with open(f"{self.media}/{found[1]}.ts", "rb") as it:
                return it.read()
        except OSError:
            return b""

    def serve(self) -> None:
        """Answers requests for lists and segments."""
        outer = self

        class Handler(http.server.BaseHTTPRequestHandler):
            """Answers one."""

            protocol_version = "HTTP/1.1"

            def do_GET(self) -> None:  # noqa: N802
                """A list, or 404."""
                found = re.fullmatch(r"/(c[0-9]+)\.m3u8", self.path)
                text = outer.text(found[1]) if found and found[1] in outer.kinds else None
                body = (text or "").encode() or outer.segment(self.path, self.headers.get("User-Agent", ""))
                self.send_response(200 if body else 404)
                self.send_header("Content-Length", str(len(body)))
                self.end_headers()
                self.wfile.write(body)

            def log_message(self, *_: object) -> None:
                """Nothing is told."""

        class Server(socketserver.ThreadingMixIn, http.server.HTTPServer):
            """Its server."""

            daemon_threads, request_queue_size, allow_reuse_address = True, 256, True

            def handle_error(self, *_: object) -> None:
                """A client went away."""
        threading.Thread(target=Server((WORLD, ORIGIN), Handler).serve_forever, daemon=True).start()


def pod(kind: str, turn: int) -> list[dict[str, Any]]:
    """The ads of a break: cut as the programme is, or in pieces of a second."""
    cut = 1 if kind == "pieces" else SEGMENT
    return [{"segments": [{"uri": f"http://{WORLD}:{ORIGIN}/{'ab'[turn % 2]}{cut}-{n}.ts", "duration": str(cut)} for n in range(LENGTH * SEGMENT // cut)]}]


def decision(kind: str, turn: int) -> str:
    """The decision file of a break."""
    return json.dumps({"breaks": [{"id": f"b{turn}", "ads": pod(kind, turn)}]})


def fallback(which: str = "f") -> str:
    """A fallback file."""
    return json.dumps({"fallback": {"ads": [{"segments": [{"uri": f"http://{WORLD}:{ORIGIN}/{which}-{n}.ts", "duration": str(SEGMENT)} for n in range(LENGTH)]}]}})


# ---- players

PLAYERS = {  # each with its words; it tells its own name to the origin
    "ffmpeg": ["ffmpeg", "-v", "error", "-nostdin", "-rw_timeout", "5000000", "-user_agent", "ffmpeg", "-i", "URL", "-c", "copy", "-f", "null", "-"],
    "mpv": ["mpv", "--no-terminal", "--no-config", "--vo=null", "--ao=null", "--user-agent=mpv", "URL"],
    "GStreamer": ["gst-launch-1.0", "-q", "uridecodebin", "uri=URL", "!", "videoconvert", "!", "fakesink", "sync=true"],
}


def make_media(folder: str, seconds: int) -> None:
    """Makes the segments of a programme of so many `seconds`, small ones, and those of the ads."""
    os.makedirs(folder)
    source = ["ffmpeg", "-v", "error", "-nostdin", "-f", "lavfi", "-i", "testsrc=size=64x36:rate=5", "-f", "lavfi", "-i", "sine=frequency=300:sample_rate=16000"]
    codecs = ["-c:v", "libx264", "-preset", "ultrafast", "-c:a", "aac", "-b:a", "16k", "-pix_fmt", "yuv420p", "-f", "segment", "-segment_format", "mpegts"]
    run(*source, "-t", str(seconds), "-g", "10", "-keyint_min", "10", *codecs, "-segment_time", str(SEGMENT), f"{folder}/p-%d.ts")
    for which, cut in (("a2", 2), ("a1", 1), ("b2", 2), ("b1", 1), ("f", 2), ("g", 2)):
        run(*source, "-t", str(LENGTH * SEGMENT), "-g", str(5 * cut), "-keyint_min", str(5 * cut), *codecs, "-segment_time", str(cut), f"{folder}/{which}-%d.ts")


class Player:
    """A player of a channel, which is started anew if it ends."""

    def __init__(self, name: str, url: str, origin: Origin) -> None:
        self.name, self.origin, self.ended = name, origin, 0
        self.words = [url if it == "URL" else it.replace("URL", url) for it in PLAYERS[name]]
        self.process: subprocess.Popen[Any] | None = None
        self.start()

    def start(self) -> None:
        """Starts it."""
        self.process = subprocess.Popen(self.words, stdin=subprocess.DEVNULL, stdout=subprocess.DEVNULL, stderr=subprocess.DEVNULL, start_new_session=True)

    def tend(self) -> bool:
        """Starts it anew if it has ended; whether it had."""
        if self.process is not None and self.process.poll() is None:
            return False
        self.ended += 1
        self.start()
        return True

    def still(self, begin: float, end: float) -> float:
        """The longest time within which it asked for no segment."""
        all_times = list(self.origin.asked.get(self.name, []))
        times = [max([it for it in all_times if it < begin], default=begin), *(it for it in all_times if begin <= it <= end), end]
        return max(later - one for one, later in zip(times, times[1:]))

    def end(self) -> None:
        """It ends."""
        if self.process is not None and self.process.poll() is None:
            self.process.kill()
            self.process.wait()


# ---- viewers

def parsed(text: str) -> list[tuple[int, str, int]]:
    """The media number, the URI and the discontinuity number of each segment of a written list."""
    number = steps = 0
    found = []
    for line in text.splitlines():
        if line.startswith("#EXT-X-MEDIA-SEQUENCE:"):
            number = int(line[22:])
        elif line.startswith("#EXT-X-DISCONTINUITY-SEQUENCE:"):
            steps = int(line[30:])
        elif line == "#EXT-X-DISCONTINUITY":
            steps += 1
        elif line and line[0] != "#":
            found.append((number, line, steps))
            number += 1
    return found


def get(host: str, path: str, limit: float = 2.0) -> tuple[int, str]:
    """The status and the text of a GET; 0 if there was no answer."""
    it = http.client.HTTPConnection(host, timeout=limit)
    try:
        it.request("GET", path)
        reply = it.getresponse()
        return reply.status, reply.read().decode("utf-8", "replace")
    except (OSError, http.client.HTTPException):
        return 0, ""
    finally:
        it.close()


class Viewer:
    """Reads a channel's list each second at the viewers' address. `ledger`: what each number is."""

    def __init__(self, name: str, host: str) -> None:
        self.name, self.host = name, host
        self.ledger: dict[int, tuple[str, int]] = {}
        self.statuses: list[tuple[float, int]] = []
        self.contradictions: list[tuple[float, int, tuple[str, int], tuple[str, int]]] = []
        self.backs: list[tuple[float, int]] = []
        self.news: list[float] = []  # when a new segment was seen
        self.last, self.is_going = -1, True
        threading.Thread(target=self.go, daemon=True).start()

    def go(self) -> None:
        """Reads, again and again."""
        time.sleep(random.random())
        while self.is_going:
            begun = time.time()
            status, text = get(self.host, f"/channels/{self.name}/live.m3u8")
            self.statuses.append((begun, status))
            if status == 200:
                self.take(time.time(), parsed(text))
            time.sleep(max(0.02, 1.0 - (time.time() - begun)))

    def take(self, now: float, items: list[tuple[int, str, int]]) -> None:
        """Takes in a list."""
        for number, uri, steps in items:
            had = self.ledger.setdefault(number, (uri, steps))
            if had != (uri, steps):
                self.contradictions.append((now, number, had, (uri, steps)))
                self.ledger[number] = uri, steps
        if items and items[-1][0] > self.last:
            self.news.append(now)
            self.last = items[-1][0]
        elif items and items[-1][0] < self.last:
            self.backs.append((now, items[-1][0] - self.last))

    def still(self, begin: float, end: float) -> float:
        """The longest time without a new segment."""
        times = [max([it for it in self.news if it < begin], default=begin), *(it for it in self.news if begin <= it <= end), end]
        return max(later - one for one, later in zip(times, times[1:]))


def judged(viewer: Viewer, origin: Origin, of: Callable[[str], bool] = bool) -> dict[str, Any]:
    """What was shown against the truth: lost and doubled segments of the programme, and pods that are whole, in part, or not there."""
    name, found = viewer.name, dict[str, Any](lost=0, doubled=0, whole=0, part=0, none=0, where=[])
    seen: set[int] = set()
    ads: list[str] = []
    before: int | None = None
    for number in sorted(viewer.ledger):
        uri = viewer.ledger[number][0]
        it = re.search(r"/p-(\d+)\.ts$", uri)
        if it is None:
            ads.append(uri.rpartition("/")[2])
            continue
        segment = int(it[1])
        if segment in seen:
            found["doubled"] += 1
            found["where"].append(("doubled", segment))
        seen.add(segment)
        if before is not None:
            between(found, origin.turn_of(name, before + 1), segment - before - 1, before + 1, ads)
        before, ads = segment, []
    found["none"] = sum(all(start + n in seen for n in range(LENGTH)) for turn in range(1, (before or 0) // EVERY) if (start := origin.start(name, turn)))
    return found


def between(found: dict[str, Any], turn: tuple[int, int] | None, missing: int, begin: int, ads: list[str]) -> None:
    """Counts what stands between two segments of the programme, of which so many are `missing` from `begin` on."""
    count = LENGTH * SEGMENT if any(it[1] == "1" for it in ads) else LENGTH
    if missing == 0 and not ads:
        return
    if ads and missing == LENGTH and turn is not None and turn[1] == 0 and len(ads) == len(set(ads)) == count:
        found["whole"] += 1
    elif ads:
        found["part"] += 1
        found["where"].append(("part", begin, missing, len(ads)))
    elif missing > 0:
        found["lost"] += missing
        found["where"].append(("lost", begin, missing))
