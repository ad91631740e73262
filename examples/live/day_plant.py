"""The plant of check_day: three ladders of two renditions, their origin server with its moods, one feed, the monitor and Prometheus."""
from __future__ import annotations

import http.server
import json
import os
import signal
import subprocess
import threading
import time
from collections import deque

import configured_lists
import media
from configured_lists import first_number
from plant import Plant
from relay import Plan, Relay
from tools import ROOT, Process, Processes, free_ports, is_there, request, wait_for, write_aside

RENDITIONS = 2
PROGRAMMES = {"news": 10, "sport": 20, "film": 28}  # each with the second at which its first break begins
EVERY, LENGTH = 30, 10  # seconds: a break of LENGTH begins every EVERY
DISK = 4 << 20  # bytes of the disk that gets full
KEPT = 40  # states of a list that an origin server remembers
LATER = 14.0  # seconds after its usual time that a late decision comes: its break has begun then
PROMETHEUS = """global: {scrape_interval: 2s, evaluation_interval: 2s}
rule_files: [RULES]
scrape_configs: [{job_name: adsplice, static_configs: [{targets: ["127.0.0.1:PORT"]}]}]
"""


def channels_of(programme: str) -> list[str]:
    """The channels of a programme."""
    return [f"{programme}-{n}" for n in range(1, RENDITIONS + 1)]


CHANNELS = [it for programme in PROGRAMMES for it in channels_of(programme)]


class DayPlan(Plan):
    """A plan in which each break is decided, except those that a fault left to the fallback (`undecided`)."""

    def __init__(self, first: int) -> None:
        super().__init__(EVERY, LENGTH, first=first)
        self.undecided: set[int] = set()

    def is_decided(self, turn: int) -> bool:
        """Whether a break gets a pod of its own."""
        return turn not in self.undecided


class DayRelay(Relay):
    """A relay with moods. Its list stands still (`is_frozen`), begins again with number 0 at a segment (`begin`), has a clock that is
    wrong by so many seconds (`clock`), is cut off within its last line (`is_cut`), or says another target duration (`target`). The next
    decision comes `late`, with a `mistake`, not at all (`silent`), or not in this rendition (`absent`)."""

    def __init__(self, name: str, plan: DayPlan, playlist: str, operator: str, site: str, room: str, rendition: int = 1) -> None:
        super().__init__(name, plan, playlist, operator, site, room, rendition)
        self.breaks = plan
        self.is_frozen = self.is_cut = False
        self.begin, self.clock, self.target, self.mood = 0, 0.0, 0, ""

    def change(self, **moods: object) -> None:
        """Sets moods, and has the list written anew."""
        for name, value in moods.items():
            setattr(self, name, value)
        self.sent = None

    def turn(self) -> None:
        """Writes the list anew unless it stands still."""
        if not self.is_frozen:
            super().turn()

    def signalled(self, text: str) -> str:
        """The list with its breaks, in the relay's mood."""
        if self.clock:
            text = shifted(text, self.clock)
        text = super().signalled(text)
        if self.begin:
            text = renumbered(text, self.begin)
        if self.target:
            text = text.replace(f"#EXT-X-TARGETDURATION:{media.SECONDS}", f"#EXT-X-TARGETDURATION:{self.target}")
        return text[:-4] if self.is_cut else text

    def decide(self, turn: int) -> None:
        """The decision on a break, in the relay's mood."""
        if turn <= self.decided:
            return
        mood, self.mood, self.decided = self.mood, "", turn
        if mood:
            self.breaks.undecided.add(turn)
        if mood in ("silent", "absent"):
            return
        text = json.dumps({"breaks": [{"id": f"break-{turn}", "ads": media.pod(self.plan.own, self.ads)}]})
        text = text.replace('"duration": "2"', '"duration": 2') if mood == "mistake" else text
        path = f"{self.decisions}/break-{turn}.json"
        if mood != "late":
            write_aside(path, text)
            return
        timer = threading.Timer(LATER, write_aside, (path, text))
        timer.daemon = True
        timer.start()

    def seconds_into_break(self) -> float:
        """How many seconds of the break that begins next, or has begun, the packager's list has; less than 0 before it begins."""
        newest = configured_lists.last_number(self.playlist) + 1
        place = (newest - self.plan.first) % self.plan.every
        return media.SECONDS * (place if place <= self.plan.length + 2 else place - self.plan.every)


def shifted(text: str, seconds: float) -> str:
    """A packager's list whose clock is so many seconds ahead."""
    lines = []
    for line in text.split("\n"):
        if line.startswith("#EXT-X-PROGRAM-DATE-TIME:"):
            instant = configured_lists.instant_of(line.split(":", 1)[1]) + seconds
            line = f"#EXT-X-PROGRAM-DATE-TIME:{configured_lists.instant_text(instant)}"
        lines.append(line)
    return "\n".join(lines)


def renumbered(text: str, number: int) -> str:
    """A list's segments from a number on, numbered from 0, as of a packager that was started anew there."""
    first = first_number(text)
    head, *pieces = text.split("#EXTINF")  # (ffmpeg states a segment's instant behind its EXTINF)
    head = head.replace(f"SEQUENCE:{first}", f"SEQUENCE:{max(0, first - number)}")
    return head + "".join(f"#EXTINF{it}" for it in pieces[max(0, number - first):])


class Origins(http.server.ThreadingHTTPServer):
    """The origin servers of all lists: /first/NAME/index.m3u8, and /second/.. of the second ones. `moods` has a word by path:
    `away` (503), `hangs` (no answer for 8 s), or `lags` (the list of 8 s ago)."""

    daemon_threads = True

    def __init__(self, folder: str) -> None:
        self.folder, self.moods = folder, dict[str, str]()
        self.past: dict[str, deque[tuple[float, str]]] = {}
        super().__init__(("127.0.0.1", 0), OriginHandler)
        threading.Thread(target=self.serve_forever, daemon=True).start()

    def set(self, place: str, programme: str, mood: str, renditions: range = range(1, RENDITIONS + 1)) -> None:
        """The `first` or `second` origin of a programme's renditions is in a mood from now on."""
        for n in renditions:
            self.moods[f"/{place}/{programme}-{n}/index.m3u8"] = mood

    def answer(self, path: str) -> tuple[int, str]:
        """The status and the text of an answer."""
        mood = self.moods.get(path, "")
        if mood == "hangs":
            time.sleep(8)
        try:
            with open(f"{self.folder}/{path.split('/')[2]}/index.m3u8", encoding="utf-8") as it:
                text = it.read()
        except (OSError, IndexError):
            return 404, ""
        past = self.past.setdefault(path, deque(maxlen=KEPT))
        if not past or past[-1][1] != text:
            past.append((time.monotonic(), text))
        if mood == "lags":
            text = next((old for when, old in reversed(past) if when < time.monotonic() - 8), past[0][1])
        return (503, "") if mood == "away" else (200, text)

    def handle_error(self, *_: object) -> None:
        """(A client that went away.)"""


class OriginHandler(http.server.BaseHTTPRequestHandler):
    """A request to an origin server."""

    server: Origins
    protocol_version = "HTTP/1.1"

    def do_GET(self) -> None:
        """Answers it."""
        status, text = self.server.answer(self.path)
        body = text.encode()
        self.send_response(status)
        self.send_header("Content-Type", "application/vnd.apple.mpegurl")
        self.send_header("Content-Length", str(len(body)))
        self.end_headers()
        self.wfile.write(body)

    def log_message(self, format: str, *args: object) -> None:
        """Says nothing."""


class Disk:
    """A small disk of its own for what feed and monitor keep; without the right to mount one, a folder that never gets full."""

    def __init__(self, processes: Processes, path: str) -> None:
        self.path = path
        os.makedirs(path)
        words = ["mount", "-t", "tmpfs", "-o", f"size={DISK}", "adsplice-day", path]
        self.is_own = is_there("mount") and subprocess.run(words, capture_output=True, check=False).returncode == 0
        if self.is_own:
            processes.stops.append(self.leave)

    def leave(self) -> None:
        """Takes the disk away."""
        subprocess.run(["umount", "-l", self.path], capture_output=True, check=False)

    def fill(self) -> None:
        """Leaves no room on it."""
        with open(f"{self.path}/filler", "wb", buffering=0) as it:
            try:
                while it.write(bytes(65536)):
                    pass
            except OSError:
                pass

    def free(self) -> None:
        """Gives the room back."""
        os.remove(f"{self.path}/filler")


class Day:
    """All parts. `lines` are the feed's and the monitor's."""

    def __init__(self, processes: Processes, program: str, room: str) -> None:
        self.processes, self.program, self.room = processes, program, room
        site, viewers, operator, self.monitor_port, self.prometheus_port = free_ports(5)
        self.plant = Plant(processes, program, room, "127.0.0.1", site, viewers, operator, RENDITIONS)
        self.disk = Disk(processes, f"{room}/disk")
        self.plans = {name: DayPlan(first) for name, first in PROGRAMMES.items()}
        self.relays = {it.name: it for it in (self.relay(programme, n) for programme in PROGRAMMES for n in range(1, RENDITIONS + 1))}
        self.origins = Origins(f"{room}/feed")
        processes.stops.append(self.origins.shutdown)
        self.as_run = f"{self.disk.path}/as-run.jsonl"
        self.lines: list[str] = []
        self.write_configuration()
        self.feed = self.start_feed()
        for it in self.relays.values():
            it.thread.start()
        self.monitor = self.start_monitor()
        self.has_alarms = self.start_prometheus()

    def relay(self, programme: str, rendition: int) -> DayRelay:
        """The relay of a rendition."""
        found = self.plant.relay(f"{programme}-{rendition}", self.plans[programme], rendition, DayRelay)
        assert isinstance(found, DayRelay)
        return found

    def of(self, programme: str) -> list[DayRelay]:
        """The relays of a programme."""
        return [self.relays[it] for it in channels_of(programme)]

    def write_configuration(self) -> None:
        """The feed's programmes, and the master playlists."""
        at = f"http://127.0.0.1:{self.origins.server_port}"
        text = f"[DEFAULT]\nat = {self.plant.operator}\nkeep = {self.disk.path}/kept\nrenditions = {' '.join(str(n + 1) for n in range(RENDITIONS))}\n"
        for name in PROGRAMMES:
            folder = f"{self.room}/feed/{name}-{{}}"
            second = f" {at}/second/{name}-{{}}/index.m3u8" if name == "film" else ""
            text += (f"[{name}]\norigin = {at}/first/{name}-{{}}/index.m3u8{second}\nbase = {self.plant.site}/media/programme/{{}}/index.m3u8\n"
                     f"decisions = {folder}/decisions\nfallback = {folder}/fallback.json\n")
            write_aside(f"{self.room}/site/{name}.m3u8", media.master([self.plant.playlist(it) for it in channels_of(name)]))
        write_aside(f"{self.room}/feed.ini", text)

    def start_feed(self) -> Process:
        """Starts the feed; its lines are kept."""
        return self.start_told([f"{ROOT}/plant/adsplice-feed", "--config", f"{self.room}/feed.ini"])

    def start_told(self, words: list[str]) -> Process:
        """Starts a process whose lines are kept."""
        found = self.processes.start(words, stdout=subprocess.PIPE, stderr=subprocess.STDOUT, text=True)
        threading.Thread(target=self.lines.extend, args=(found.stdout,), daemon=True).start()
        return found

    def start_monitor(self) -> Process:
        """Starts the monitor; its lines are kept, too."""
        words = ["--config", f"{self.room}/feed.ini", "--viewers", self.plant.viewers, "--listen", f"127.0.0.1:{self.monitor_port}", "--as-run", self.as_run]
        words += [word for port in self.plant.ports for word in ("--process", f"http://127.0.0.1:{port}")]
        return self.start_told([f"{ROOT}/plant/adsplice-monitor", *words])

    def start_prometheus(self) -> bool:
        """Starts Prometheus with the package's alerts, if it is installed; whether it is."""
        if not is_there("prometheus"):
            return False
        write_aside(f"{self.room}/prometheus.yml", PROMETHEUS.replace("RULES", f"{ROOT}/plant/monitor/alerts.yml").replace("PORT", str(self.monitor_port)))
        self.processes.start(["prometheus", f"--config.file={self.room}/prometheus.yml", f"--storage.tsdb.path={self.room}/figures",
                              f"--web.listen-address=127.0.0.1:{self.prometheus_port}"])
        wait_for(self.prometheus_port)
        return True

    def port_of(self, programme: str) -> int:
        """The port of the process that has a programme."""
        name = channels_of(programme)[0]
        return next(port for port in self.plant.ports if request("GET", f"http://127.0.0.1:{port}/channels/{name}/live.m3u8")[0] == 200)

    def kill_adsplice(self, programme: str, seconds: float) -> None:
        """Kills the process that has a programme, and starts it again so many seconds later."""
        port = self.port_of(programme)
        self.processes.end(self.plant.running[port], hard=True)
        time.sleep(seconds)
        self.plant.running[port] = self.processes.adsplice(self.program, port)

    def kill_nginx(self, seconds: float) -> None:
        """Kills nginx with its workers, and starts it again so many seconds later."""
        workers = subprocess.run(["pgrep", "-P", str(self.plant.nginx.pid)], capture_output=True, text=True, check=False).stdout.split()
        self.processes.end(self.plant.nginx, hard=True)
        for it in workers:
            os.kill(int(it), signal.SIGKILL)
        time.sleep(seconds)
        self.plant.nginx = self.processes.nginx(self.plant.configuration)
