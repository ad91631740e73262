"""Grown inputs at the rim of the plant: lists, master playlists, answers, redirects, requests at the door, folders, settings and decisions.

  plant/tests/fuzzed.py [--seconds N] [--seed N] [--only WORD] [--keep FOLDER]

Each kind has its turn until the time is over. An input breaks its promise if something is raised that nobody foresaw, if it takes too long for
its bytes, or by what the function of its kind says. Such inputs are printed, and written to FOLDER. The last line is 'fuzzed: N inputs, M broke
a promise', and the status is 1 if any did.
"""
import argparse
import os
import random
import shutil
import socket
import sys
import tempfile
import threading
import time
import urllib.parse
from pathlib import Path

from tools import PLANT

sys.path.insert(0, PLANT)
import attacks  # noqa: E402
from grown import Grower  # noqa: E402
from stepped import Stepped  # noqa: E402

from adsplice_plant import admission, asking, config_file, decisions, door, excerpt, folders, handover, journal, judge, masters, origin, playlist, reading, words  # noqa: E402
from adsplice_plant.breaks import Break  # noqa: E402
from adsplice_plant.events import Ask, Ticked, What  # noqa: E402
from adsplice_plant.location import LocalFile, Url  # noqa: E402
from adsplice_plant.reach import Reach  # noqa: E402
from adsplice_plant.settings import ladder_of, settings_of  # noqa: E402
from adsplice_plant.web import Client  # noqa: E402
from adsplice_plant.words import Fault  # noqa: E402

BASE, AT, LINE = "http://origin.example/film/master.m3u8", "http://127.0.0.1:1", 16_384
SLOW, SLOW_BYTE = 0.3, 2e-5  # seconds of this process's work that an input may take, and for each of its bytes
TRIALS = 4  # of an input that takes too long
SHOWN = 300  # letters of an input that are printed


class Broken(Exception):
    """A promise that isn't kept."""


def owed(is_so, text):
    """Raises Broken with `text` unless it is so."""
    if not is_so:
        raise Broken(text)


# ---- names, of which none leaves this machine

def found_address(host, port, *more, real=socket.getaddrinfo, **named):
    """As the system's, without a question to a server of names: `far.example` is another address of this machine."""
    host = {"far.example": "127.0.0.2", "localhost": "127.0.0.1"}.get(host, host)
    return real(host, port, *more, **{**named, "flags": socket.AI_NUMERICHOST})


# ---- the kinds: each answers in words what became of an input

class Tried:
    """Inputs of one kind, in the folder `room`."""

    def __init__(self, room):
        self.room = room


class Lists(Tried):
    """Lists as an origin answers them: no reader raises anything, and no line of one becomes two."""

    seeds = attacks.SMALL_LISTS

    def run(self, body, rng):
        why = origin.over_bound(body, LINE, rng.choice((20, 2000)))
        listed = playlist.read(body)
        made = handover.absolute(body, BASE)
        owed(made.count(b"\n") == body.count(b"\n"), "a list has other lines once its references are absolute")
        handover.Handover(rng.choice((None, listed.end()))).take(body)
        handover.has_same(body, made)
        excerpt.event_in(body)
        owed(words.plain(why).isprintable(), "what is told of a list can be shown")
        return f"{why} {playlist.is_whole(body)} {reading.target_in(body)} {min(3, len(listed.segments))} {min(2, len(listed.ranges))} {listed.end() is None}"


class Taking(Stepped):
    """A feed by its function, and an adsplice that takes all that it is given."""

    def answer(self, request):
        if request.what is What.MAKE:
            return 201, "", b""
        if request.what in (What.LOOK, What.CHECK):
            return (200, "", self.pushed[-1]) if self.pushed else (404, "not found", b"")
        if request.what is What.PUSH:
            self.pushed = [request.body]
        return 204, "", b""


class Steps(Tried):
    """Lists one after the other, which a channel's feed is given: its function raises nothing."""

    seeds = attacks.SMALL_LISTS

    def __init__(self, room):
        super().__init__(room)
        self.begin()

    def begin(self):
        self.feed = Taking(settings_of("news", {"origin": BASE, "at": AT}), None, 10**18)

    def run(self, body, rng):
        if origin.over_bound(body, LINE, len(BASE)) or not playlist.is_whole(body):
            return "isn't given"
        if rng.random() < 0.05:
            self.begin()
        self.feed.told.clear()
        pushed = self.feed.pushed
        try:
            self.feed.seconds += rng.choice((1.0, 5.0))
            self.feed.read(body)
            self.feed.run(Ticked())
        except BaseException:
            self.begin()
            raise
        return f"{pushed is not self.feed.pushed} " + " ".join(f"{it.fault} {it.text[:60]}" for it in self.feed.told[:4])


class Masters(Tried):
    """Master playlists, by a URL or by a file: each rendition is of the same origin, or of the folder."""

    seeds = attacks.MASTERS

    def run(self, body, rng):
        is_file, said = rng.random() < 0.3, {"at": AT, "master": "/tmp/viewers.m3u8", "origin": BASE}
        one = ladder_of("film", said | ({"origin": "/srv/film/master.m3u8", "base": BASE} if is_file else {}))[0]
        try:
            found = masters.read(body, one.base)
            channels = masters.channels_of(found, one)
        except (Fault, ValueError) as fault:
            return f"{type(fault).__name__} {fault}"
        owed(0 < len(channels) <= 64, "a process has 64 channels")
        for it in channels:
            if isinstance(it.origin, Url):
                parts = urllib.parse.urlsplit(it.origin.text)
                owed((parts.scheme, (parts.hostname or "").lower(), parts.port or 80) == ("http", "origin.example", 80) and "@" not in parts.netloc.partition(":")[0], f"{it.origin} is of another origin")
                owed(not any(letter.isspace() for letter in it.origin.text), f"{it.origin.text!r} has a space")
            else:
                owed(isinstance(it.origin, LocalFile) and os.path.normpath(it.origin.path).startswith("/srv/film/"), f"{it.origin} isn't of the folder")
            owed(it.second is None, "a list names no second origin")
        text = masters.write(found, {uri: f"/channels/{it.name}/live.m3u8" for uri, it in zip(found.uris, channels)})
        owed(text.count(b"\n") == len(found.lines), "a line for each line")
        return f"{len(channels)} channels, {sorted(found.left_out)}"


class Server:
    """A server on `address` that answers each connection with its `answer`, and counts them."""

    def __init__(self, address):
        self.answer, self.count = b"", 0
        self.socket = socket.create_server((address, 0))
        self.port = self.socket.getsockname()[1]
        threading.Thread(target=self.serve, daemon=True).start()

    def serve(self):
        while True:
            it, _ = self.socket.accept()
            with it:
                self.count += 1
                try:
                    it.settimeout(1)
                    it.recv(65_536)
                    it.sendall(self.answer)
                except OSError:
                    pass


class Answers(Tried):
    """Answers of a server, byte for byte: each is an answer or why there is none, in time and in bounds."""

    seeds = attacks.HEADERS

    def __init__(self, room):
        super().__init__(room)
        self.server = Server("127.0.0.1")

    def run(self, body, rng):
        self.server.answer = body
        client, begun = Client(1.0), time.monotonic()
        found = client.ask("GET", f"http://127.0.0.1:{self.server.port}/i.m3u8")
        client.close()
        owed(time.monotonic() - begun < 8, "an answer within its time")
        owed(len(found.body) <= 4_194_304 and (found.status or found.why), "an answer, or why there is none")
        owed(found.why.isprintable() and words.plain(found.line()).isprintable(), "what is told of it can be shown")
        return f"{found.status} {found.why} {sorted(found.fields)[:4]}"


class Redirects(Tried):
    """Where redirects lead: never to another port or address of this machine."""

    seeds = attacks.REDIRECTS

    def __init__(self, room):
        super().__init__(room)
        self.inner, self.outer = Server("127.0.0.1"), Server("127.0.0.2")
        self.inner.answer = attacks.reply(b"#EXTM3U\n")

    def run(self, body, rng):
        place = body.replace(b"PORT", str(self.inner.port).encode()).replace(b"\r", b"").replace(b"\n", b"")
        self.outer.answer, asked, follows = attacks.reply(b"", b"302 Found", b"Location: " + place[:2000] + b"\r\n"), self.inner.count, rng.random() < 0.5
        client = Client(0.5, follows, Reach(frozenset({"far.example"})))
        found = client.ask("GET", f"http://far.example:{self.outer.port}/i.m3u8")
        client.close()
        owed(self.inner.count == asked, f"the inner server was asked by {place!r}")
        owed(found.why.isprintable(), "what is told of it can be shown")
        return f"{follows} {found.status} {found.why}"


class Given:
    """A channel with a folder of decisions, as the door knows it."""

    def __init__(self, folder):
        self.settings, self.together = settings_of("news", {"origin": BASE, "at": AT, "decisions": str(folder)}), threading.RLock()

    def tell(self, *said):
        owed(words.plain(" ".join(map(str, said))).isprintable(), "a line")

    def is_given(self, name):
        return False


class Door(Tried):
    """Requests at the door, byte for byte: each is answered by a status, and what is kept is a decision of a good name."""

    seeds = attacks.REQUESTS

    def __init__(self, room):
        super().__init__(room)
        self.folder = room / "door" / "decisions"
        self.folder.mkdir(parents=True)
        self.server = door.Server("127.0.0.1:0", admission.Admission({"news": Given(self.folder)}))
        threading.Thread(target=self.server.serve_forever, args=(0.2,), daemon=True).start()

    def run(self, body, rng):
        with socket.create_connection(self.server.server_address, 15) as it:
            try:
                it.sendall(body)
                it.shutdown(socket.SHUT_WR)
            except OSError:
                pass  # (it was refused within its bytes)
            found = b""
            try:
                while (piece := it.recv(65_536)) and len(found) < 10_000:
                    found += piece
            except ConnectionResetError:
                pass
        owed(not found or found[:9] in (b"HTTP/1.1 ", b"HTTP/1.0 "), f"it answers {found[:80]!r}")
        kept = os.listdir(self.folder)
        for name in kept:
            owed(admission.is_name(name) and judge.judge((self.folder / name).read_bytes()) is None, f"{name!r} was kept")
            (self.folder / name).unlink()
        owed(os.listdir(self.folder.parent) == ["decisions"], "nothing beside the folder")
        said = found.partition(b"\r\n\r\n")[2][:60]
        return f"{found[:13]!r} {len(kept)} {said!r}" if found else "no answer"


class Folders(Tried):
    """Folders of decisions in which anything lies: files alone are taken, nothing elsewhere is touched, and nobody waits."""

    seeds = attacks.NAMES

    def __init__(self, room):
        super().__init__(room / "folders")
        self.secret = room / "secret.json"
        self.secret.write_bytes(attacks.DECISIONS[0])

    def make(self, kind, path, rng):
        """Makes an entry of a `kind` at `path`, if nothing is there."""
        if os.path.lexists(path):
            return
        if kind in ("file", "decision", "long", "secret"):
            path.write_bytes(rng.choice(attacks.DECISIONS) if kind != "long" else b"[0" + b",0" * 250_001 + b"]")
            path.chmod(0 if kind == "secret" else 0o644)
        elif kind == "folder":
            path.mkdir()
        elif kind == "pipe":
            os.mkfifo(path)
        elif kind == "socket":
            with socket.socket(socket.AF_UNIX) as it:
                it.bind(str(path))
        else:
            os.symlink({"link": self.secret, "loop": path.name, "outside": self.room.parent, "device": "/dev/zero"}[kind], path)

    def run(self, body, rng):
        shutil.rmtree(self.room, ignore_errors=True)
        self.room.mkdir()
        told = []
        it = folders.DecisionFolder("news", self.room, 7, lambda *said: told.append(" ".join(map(str, said))))
        for name in {body, *rng.choices(attacks.NAMES, k=rng.randrange(6))}:
            name = os.fsdecode(name.replace(b"/", b"").replace(b"\0", b"")[:255])
            try:
                self.make(rng.choice(attacks.FILE_KINDS), self.room / (name or "a.json"), rng)
            except (OSError, ValueError):
                continue  # (a name that no file has, or a socket's that is too long)
        before = {path: path.lstat().st_mtime_ns for path in self.room.parent.iterdir() if path != self.room}
        found = it.look()
        files = dict(found.files) if found is not None else {}
        for name in files:
            owed(name.endswith(".json") and (self.room / name).is_file() and not (self.room / name).is_symlink(), f"{name!r} was taken")
        for name in list(files)[:2]:
            it.finish(name)
        asker = asking.Asker("news", "folder", 1.0, None, {"": self.room}, lambda *said: None, lambda name: False, lambda name: None, lambda name: None)
        asker.ask(Ask((Break("b9", 10**9, 1, "splice_insert"),), 2, 0))
        asker.end()
        it.look()
        owed({path: path.lstat().st_mtime_ns for path in self.room.parent.iterdir() if path != self.room} == before, "something elsewhere was touched")
        owed(all(words.plain(line).isprintable() for line in told), "a line")
        return f"{min(3, len(files))} taken, " + " ".join(sorted({line.partition(": ")[2][:30] for line in told}))


class Settings(Tried):
    """Files of settings: each is read, or refused in words."""

    seeds = attacks.SETTINGS

    def run(self, body, rng):
        path, faults = self.room / "feed.ini", []
        path.write_bytes(body.replace(b"FOLDER", os.fsencode(self.room)))
        try:
            found = config_file.read_file(path, faults)
        except Fault as fault:
            return f"Fault {str(fault).replace(str(self.room), '')}"
        for it in found:
            places = [str(one) for one in (it.origin, it.second) if one is not None]
            owed(not any(letter.isspace() for one in places for letter in one), f"an origin has a space: {places}")
            owed(len(it.base) <= 2048 and words.NAME.fullmatch(it.name), "a base or a name out of bounds")
        return f"{len(found)} " + " ".join(text.replace(str(self.room), "")[:60] for _, text in faults[:2])


class Decided(Tried):
    """Decision files and answers of ad servers: each is judged, and what is right says what it is."""

    seeds = attacks.DECISIONS

    def run(self, body, rng):
        wrong, (kind, names) = judge.judge(body), decisions.said_by(body)
        owed(wrong is not None or kind, "a right file that says nothing")
        found, why = asking.decision_of(body, "b1")
        owed(found is not None or why, "why it isn't taken")
        journal.Reader().event(body.decode("utf-8", "replace"))
        words.level_of(body[:500].decode("utf-8", "replace"))
        return f"{kind} {len(names)} {wrong.line() if wrong else ''} {why[:60]}"


KINDS = (Lists, Steps, Masters, Answers, Redirects, Door, Folders, Settings, Decided)


# ---- running

class Kind:
    """One of KINDS that is run by inputs of the source of chance `rng`."""

    def __init__(self, kind, room, rng):
        self.name, self.rng, self.count, self.broken = kind.__name__.lower(), rng, 0, 0
        self.runs = kind(room)
        self.grower = Grower(rng, kind.seeds)

    def turn(self, keep):
        """One input; a line of what it broke, if it did, of which the input is written to the folder `keep`."""
        it, self.count = self.grower.input(), self.count + 1
        try:
            for _ in range(TRIALS):  # (a machine that is busy makes one slow)
                begun = time.thread_time()
                self.grower.keep(it, self.runs.run(it, self.rng))
                took = time.thread_time() - begun
                if took < SLOW + SLOW_BYTE * len(it):
                    return ""
            why = f"{took:.2f} s for {len(it)} bytes, each time"
        except Exception as fault:  # noqa: BLE001  (whatever is raised is what is looked for)
            trace, place = fault.__traceback__, ""
            while trace is not None:
                place, trace = f"{os.path.basename(trace.tb_frame.f_code.co_filename)}:{trace.tb_lineno}", trace.tb_next
            why = f"{type(fault).__name__} at {place}: {str(fault)[:SHOWN]}"
        self.broken += 1
        if keep is not None:
            (keep / f"{self.name}-{self.count}").write_bytes(it)
        return words.plain(f"{self.name} {self.count}: {why}: {it[:SHOWN]!r}")


def run(seed, seconds, only, keep):
    """Runs the kinds whose name has the word `only` for so many seconds; answers how many inputs there were, and how many broke a promise."""
    socket.getaddrinfo = found_address
    with tempfile.TemporaryDirectory(prefix="adsplice-fuzzed-") as room:
        kinds = [Kind(it, Path(room), random.Random(f"{seed} {it.__name__}")) for it in KINDS if only in it.__name__.lower()]
        until, told = time.monotonic() + seconds, set()
        while time.monotonic() < until:
            for it in kinds:
                line = it.turn(keep)
                if line and (place := line.split(": ")[1]) not in told:  # (each place once)
                    told.add(place)
                    print(line, flush=True)
        print("; ".join(f"{it.name} {it.count}, of {len(it.grower.seen)} kinds" for it in kinds))
    return sum(it.count for it in kinds), sum(it.broken for it in kinds)


def main(said):
    """Runs it by the words `said`."""
    it = argparse.ArgumentParser(description=__doc__, formatter_class=argparse.RawDescriptionHelpFormatter)
    it.add_argument("--seconds", type=float, default=60.0)
    it.add_argument("--seed", type=int, default=int(time.time()))
    it.add_argument("--only", default="")
    it.add_argument("--keep", type=Path, help="a folder for the inputs that break a promise")
    found = it.parse_args(said)
    words.ends_cleanly()
    if found.keep is not None:
        found.keep.mkdir(parents=True, exist_ok=True)
    count, broken = run(found.seed, found.seconds, found.only, found.keep)
    print(f"fuzzed: {count} inputs of seed {found.seed}, {broken} broke a promise")
    return 1 if broken else 0


if __name__ == "__main__":
    sys.exit(main(sys.argv[1:]))
