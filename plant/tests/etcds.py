"""Members of an etcd on loopback, and machines with a feed and a controller each, which have it and an origin in common."""
import os
import shutil
import signal
import subprocess
import sys
import time
import urllib.request

from of_lists import URL
from tools import PLANT, FakeOrigin, RulesController, Viewers, free_port, get, listed, until

sys.path.insert(0, PLANT)
from adsplice_plant.etcd import Etcd  # noqa: E402

ETCD = shutil.which("etcd", path=f"{os.environ.get('PATH', '')}:/usr/bin")


def needs(*names):
    """Says what a test needs."""
    def mark(test):
        test.needs = names
        return test
    return mark


class Etcds:
    """Members of an etcd on loopback, each of which may be killed and started again."""

    def __init__(self, room, count=3, *words, scheme="http"):
        self.room, self.words, self.scheme = room, words, scheme
        self.ports = [(free_port(), free_port()) for _ in range(count)]
        self.running = [None] * count
        for place in range(count):
            self.start(place)
        until(lambda: all(self.is_well(place) for place in range(count)), 20, "etcd")

    def start(self, place):
        """Starts a member."""
        client, peer = self.ports[place]
        cluster = ",".join(f"m{n}=http://127.0.0.1:{it[1]}" for n, it in enumerate(self.ports))
        words = ["--name", f"m{place}", "--data-dir", f"{self.room.path}/etcd{place}", "--listen-client-urls", f"{self.scheme}://127.0.0.1:{client}", "--advertise-client-urls",
                 f"{self.scheme}://127.0.0.1:{client}", "--listen-peer-urls", f"http://127.0.0.1:{peer}", "--initial-advertise-peer-urls", f"http://127.0.0.1:{peer}",
                 "--initial-cluster", cluster, "--log-level", "error", "--logger", "zap", *self.words]
        with open(f"{self.room.path}/etcd{place}.log", "ab") as log:
            self.running[place] = subprocess.Popen([ETCD, *words], stdin=subprocess.DEVNULL, stdout=log, stderr=log)
        self.room.running.append(self.running[place])

    def is_well(self, place):
        """Whether a member serves."""
        return "true" in get(f"{self.scheme}://127.0.0.1:{self.ports[place][0]}/health")[1]

    def kill(self, place):
        """Kills a member."""
        self.running[place].kill()
        self.running[place].wait()

    def addresses(self):
        """The URLs of the members."""
        return tuple(f"{self.scheme}://127.0.0.1:{it[0]}" for it in self.ports)

    def text(self):
        """The setting `store`."""
        return ("etcds://" if self.scheme == "https" else "etcd://") + " ".join(f"127.0.0.1:{it[0]}" for it in self.ports)

    def control(self, *words):
        """Has etcdctl do something; whether it did."""
        words = ["etcdctl", "--endpoints", self.addresses()[0], *words]
        return subprocess.run(words, env={**os.environ, "ETCDCTL_API": "3"}, capture_output=True, text=True, check=False).returncode == 0

    def keys(self, **more):
        """A client."""
        return Etcd(self.addresses(), **more)


class Built:
    """A controller that is the built program."""

    def __init__(self, room):
        self.room, self.port = room, free_port()
        self.url = f"http://127.0.0.1:{self.port}"
        self.start()

    def start(self):
        """Its process begins."""
        self.process = self.room.adsplice(self.port)

    def kill(self):
        """It is killed."""
        self.process.kill()
        self.process.wait()

    def shown(self, name):
        """The written playlist of a channel; empty if it has none, or doesn't answer."""
        try:
            with urllib.request.urlopen(f"{self.url}/channels/{name}/live.m3u8", timeout=0.3) as it:
                return it.read().decode()
        except OSError:
            return ""


class Group:
    """Machines with a feed and a controller each, which have an etcd and an origin in common. `make`: makes a controller; without it each is by the rules."""

    def __init__(self, room, store, count=3, more="", target=1, make=None):
        self.room, self.store, self.more, self.target = room, store, more, target
        self.origin, self.last, self.breaks = room.server(FakeOrigin("")), 9, ()
        self.controllers = [make() if make is not None else room.server(RulesController()) for _ in range(count)]
        self.viewers, self.texts = Viewers(), {}
        self.feeds = [None] * count
        self.has_all_lines = True  # whether lists are compared with their date ranges, which a channel that is made anew may lack
        self.publish()
        for place in range(count):
            self.start(place)

    def publish(self):
        """The origin has its next list."""
        self.origin.text = listed(self.last - 9, self.last, self.breaks, self.target)

    def step(self, count=1, seconds=1.0):
        """So many further segments, one in so many seconds; all machines' viewers see what is written."""
        for _ in range(count):
            self.last += 1
            self.publish()
            end = time.monotonic() + seconds
            while time.monotonic() < end:
                self.look()
                time.sleep(0.1)

    def look(self):
        """Viewers of all machines load what is written: no number has two contents, and two lists with the same numbers are the same bytes."""
        for it in self.controllers:
            if text := it.shown("news"):
                self.viewers.see(text)
                media = [line for line in text.splitlines() if "SEQUENCE" in line]
                count = text.count("#EXTINF")
                text = "\n".join(line for line in text.splitlines() if self.has_all_lines or not line.startswith("#EXT-X-DATERANGE"))
                had = self.texts.setdefault((*media, count), text)
                assert had == text, f"{had}\n--- and\n{text}"

    def newest(self):
        """The last programme segment that each machine has written."""
        found = [[line for line in it.shown("news").splitlines() if line and line[0] != "#"] for it in self.controllers]
        return [it[-1].rpartition("/")[2] if it else "" for it in found]

    def settled(self, *places, seconds=20):
        """Waits until the machines have written the newest segment."""
        places = places or range(len(self.feeds))
        until(lambda: all(self.newest()[it] == f"s{self.last}.ts" for it in places), seconds, f"s{self.last}.ts on {[*places]}, and not {self.newest()}")
        self.look()

    def start(self, place):
        """Starts the feed of a machine."""
        name = f"m{place}"
        text = (f"[DEFAULT]\nat = {self.controllers[place].url}\nkeep = {self.room.path}/{name}/kept\nstore = {self.store}\nmachine = {name}\n"
                f"[news]\norigin = {self.origin.url}\nbase = {URL}\ndecisions = {self.room.path}/{name}/decisions\n{self.more}")
        path = self.room.write(f"{name}/feed.ini", text)
        self.feeds[place] = self.room.feed("--config", path, "--timeout", "1.5", "--longest-pause", "1")

    def kill(self, place, how=signal.SIGKILL):
        """Ends the feed of a machine."""
        self.feeds[place].end(how)

    def leader(self):
        """The machine that leads, by the lines of the feeds that run; none if none has said so."""
        found = [n for n, it in enumerate(self.feeds) if it.process.poll() is None and any(" lead - Leads" in line for line in it.lines)]
        return found[-1] if found else None
