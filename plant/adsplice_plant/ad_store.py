"""The ads that are made for channels' ladders, on disk, and those that are being made: bounded in number, time and room.

An ad's folder is STORE/LADDER/AD, by the key of the ladder, and by the sum of the file's bytes and how long the ad is to last. So a file that
changes under its URL becomes another ad. Which file a URL had is in KEEP/files.json.
"""
from __future__ import annotations

import contextlib
import hashlib
import json
import os
import shutil
import tempfile
import threading
import time
from collections.abc import Callable
from dataclasses import dataclass, field
from pathlib import Path

from . import download, making
from .ad_server import Asking
from .children import Children
from .download import Download
from .filling import Ready, ready_of
from .ladders import ALONE, Ladder
from .locks import Lock, Taken
from .making import Choices, Made
from .pauses import Pauses
from .whole_files import write_aside
from .words import Fault, shown

MOST_WAITING = 256  # ads that wait to be made
MOST_KNOWN = 20_000  # URLs that are known
AGAIN = 3600.0  # seconds after which the server of a file is asked whether it has changed
FIRST_PAUSE, LONGEST_PAUSE = 10.0, 3600.0  # seconds until an ad that couldn't be made is tried again
RECENT = 3600.0  # seconds since its last use in which an ad doesn't go, for viewers may read it yet
NOTED = 60.0  # seconds after which the use of an ad is noted again: a disk that is busy may take long for it
CLEANED = 600.0  # seconds between two times that old ads are taken away
DAY = 86_400.0
FETCH = 300.0  # seconds for a file
FILES = "files.json"
UNREAD, UNMADE = "it isn't read", "it can't be made"  # how it begins why a file isn't ready of which another one may be
PRIVATE = 0o750  # of what is kept: URLs of ads may have tokens


@dataclass(frozen=True)
class Wanted:
    """An ad that is to be made for `ladder`: its `id`, the URL or the path of its file (`url`), how long it is said to last in nanoseconds, the
    `loudness` of its sound in LUFS, and who fetches a file at a URL (`client`)."""

    ladder: Ladder
    id: str
    url: str
    length: int | None
    loudness: float | None = None
    client: Asking | None = None

    def key(self) -> tuple[str, str]:
        """By what it is known: the ladder's key, and the file with all else that the ad depends on. The query of a URL isn't among that: many a server
        signs its URLs anew for each answer."""
        return self.ladder.key(), f"{self.length or 0} {self.loudness if self.loudness is not None else '-'} {self.id} {self.url.partition('?')[0]}"


@dataclass
class Known:
    """What is known of a file: the folder of its ad (`ad`), the server's mark for it (`tag`), and when it was looked at, in seconds since 1970."""

    ad: str
    tag: str
    at: float


@dataclass
class Failed:
    """Why an ad couldn't be made, and when it is tried again (a moment of the monotonic clock)."""

    why: str
    until: float
    pauses: Pauses = field(default_factory=lambda: Pauses(FIRST_PAUSE, LONGEST_PAUSE))


@dataclass(frozen=True)
class Bounds:
    """What the store may take: so many `processes` that make ads at a time, `threads` for each, `patience` in seconds, bytes of a file (`largest`),
    bytes of all ads (`room`), and `days` after its last use that an ad stays."""

    processes: int
    threads: int
    patience: float
    largest: int
    room: int
    days: float


class Store:
    """The ads in the folder `store`, which is published `at` a URL; what is known of them is in the folder `keep`. `say` is called with a word (none if nothing
    is wrong) and a sentence for a line. `bounds` say what it may take."""

    def __init__(self, store: Path, keep: Path, at: str, bounds: Bounds, say: Callable[[str, str], None]) -> None:
        self.store, self.keep, self.at, self.bounds, self.say = store, keep, at, bounds, say
        self.children, self.lock = Children(), threading.Lock()
        self.writing = threading.Lock()  # held while the disk is written or looked through; questions don't wait for it
        self.known: dict[tuple[str, str], Known] = {}
        self.failed: dict[tuple[str, str], Failed] = {}
        self.waiting: dict[tuple[str, str], Wanted] = {}  # the first one is made first
        self.making: set[tuple[str, str]] = set()
        self.there: dict[tuple[str, str], Made] = {}  # by the folders
        self.sizes: dict[Path, int] = {}  # of the folders, which don't change
        self.is_over, self.work = False, threading.Condition(self.lock)
        self.made_count, self.bytes, self.cleaned = 0, 0, -CLEANED
        self.threads: list[threading.Thread] = []
        self.taken = Lock(keep / "decide.lock")

    def begin(self) -> None:
        """Takes in what is there, and begins to make what is wanted; raises Fault, or OSError."""
        self.store.mkdir(parents=True, exist_ok=True)
        self.keep.mkdir(parents=True, exist_ok=True)
        with contextlib.suppress(PermissionError):
            self.keep.chmod(PRIVATE)
        try:
            self.taken.take()
        except Taken:
            raise Fault(f"{self.keep}: another adsplice-decide keeps its things there") from None
        for it in self.store.iterdir():
            making.sweep(it)
        shutil.rmtree(self.keep / "files", ignore_errors=True)
        (self.keep / "files").mkdir()
        self.known = known_in(self.keep / FILES)
        self.clean()
        for target in (self.remember, *[self.run] * self.bounds.processes):
            thread = threading.Thread(target=target, daemon=True)
            thread.start()
            self.threads.append(thread)

    def remember(self) -> None:
        """Reads what is there, those ads first that were noted last: a question needn't wait for the disk then."""
        with self.lock:
            keys = [(key[0], it.ad) for key, it in reversed(self.known.items())]
        for ladder, ad in keys:
            if self.is_over:
                return
            with self.lock:
                self.at_hand(ladder, ad)

    def end(self) -> None:
        """Makes no more, and leaves no ad that isn't whole."""
        with self.work:
            self.is_over = True
            self.work.notify_all()
        self.children.end()
        for it in self.threads:
            it.join(5)
        shutil.rmtree(self.keep / "files", ignore_errors=True)
        if self.taken.handle >= 0:
            self.taken.release()

    # ---- what is there

    def ready(self, it: Wanted, is_alone: bool, strays: Callable[[str], str] = lambda url: "") -> Ready | str:
        """The ad `it` if it is made, or why it isn't; it is wanted from now on. `is_alone`: for a channel by itself, whose rendition has no name.
        `strays` says why a URL isn't asked, and nothing if it may be."""
        key, now = it.key(), time.time()
        with self.lock:
            known = self.known.get(key)
            made = None if known is None else self.at_hand(key[0], known.ad)
        if known is None or made is None:
            return f"{UNREAD}: {why}" if (why := strays(it.url)) else self.want(it, key)
        if now - known.at > AGAIN and not strays(it.url):
            self.want(it, key)
        facts = self.store / key[0] / known.ad / making.FACTS
        try:
            if now - facts.stat().st_mtime > NOTED:
                os.utime(facts)
        except OSError:
            return "it isn't there any more"
        return ready_of(it.id, made, f"{self.at}/{key[0]}/{known.ad}", ALONE if is_alone else "{}", made.has_map)

    def at_hand(self, ladder: str, ad: str) -> Made | None:
        """The ad in the folder `ad` of the `ladder`; none if there is none. (The lock is held.)"""
        if (ladder, ad) not in self.there and (found := making.read(self.store / ladder / ad)) is not None:
            self.there[ladder, ad] = found
        return self.there.get((ladder, ad))

    def want(self, it: Wanted, key: tuple[str, str]) -> str:
        """The ad `it` of this `key` is to be made, or looked at again; why it isn't ready."""
        with self.work:
            if key in self.making:
                return "it is being made"
            failed = self.failed.get(key)
            if failed is not None and time.monotonic() < failed.until:
                return f"{UNMADE}: {failed.why}"
            if key in self.waiting:
                return "it waits to be made"
            if len(self.waiting) >= MOST_WAITING:
                return f"it isn't made: {MOST_WAITING} ads wait to be made"
            self.waiting[key] = it
            self.work.notify()
            return "it isn't made yet"

    def counts(self) -> dict[str, int]:
        """How many ads are ready, wait or are being made, and couldn't be made of those that were wanted lately."""
        with self.lock:
            failed = sum(it.until > time.monotonic() - CLEANED for it in self.failed.values())
            return {"ready": len(self.there), "waiting": len(self.waiting), "making": len(self.making), "failed": failed}

    # ---- what is being made

    def run(self) -> None:
        """Makes what is wanted, one after the other, until the end."""
        while not self.is_over:
            if (it := self.next()) is None:
                continue
            key = it.key()
            try:
                self.make(it, key)
            except (Fault, OSError) as fault:
                self.fail(it, key, str(fault) if isinstance(fault, Fault) else f"{fault.filename or ''} {fault.strerror}".strip())
            except Exception as fault:  # noqa: BLE001  (one ad's fault isn't to end the making of the others)
                self.fail(it, key, f"{type(fault).__name__}: {str(fault)[:200]}")
            finally:
                with self.work:
                    self.making.discard(key)

    def next(self) -> Wanted | None:
        """The next ad that is to be made; none if none waits for a while, in which old ones are taken away, and none at the end."""
        with self.work:
            if not self.waiting and not self.is_over:
                self.work.wait(60)
            if self.waiting and not self.is_over:
                key = next(iter(self.waiting))
                self.making.add(key)
                return self.waiting.pop(key)
        if not self.is_over and time.monotonic() - self.cleaned > CLEANED:
            self.clean()
        return None

    def fail(self, it: Wanted, key: tuple[str, str], why: str) -> None:
        """The ad `it` of this `key` couldn't be made, for the reason `why`."""
        if self.is_over:
            return
        with self.lock:
            failed = self.failed.setdefault(key, Failed(why, 0.0))
            pause = failed.pauses.next()
            failed.why, failed.until = why, time.monotonic() + pause
            while len(self.failed) > MOST_KNOWN:
                self.failed.pop(next(iter(self.failed)))
        self.say("NotMade", f"ad {it.id}: MediaFile {shown(it.url)}: {why}; it is tried again after {pause:.0f} s if it is wanted")

    def make(self, it: Wanted, key: tuple[str, str]) -> None:
        """Makes the ad `it` of this `key`, unless it is there; raises Fault or OSError."""
        with self.lock:
            known = self.known.get(key)
        client = it.client if it.url.startswith(("http://", "https://")) else None
        is_there = known is not None and making.read(self.store / key[0] / known.ad) is not None
        if known is not None and is_there and client is not None and not download.has_changed(client, it.url, known.tag):
            return self.note(key, Known(known.ad, known.tag, time.time()))
        if self.room() <= 0:
            raise Fault(f"the ads take {self.bytes} bytes, and may take {self.bounds.room}")
        begun = time.monotonic()
        with tempfile.NamedTemporaryFile(prefix="ad-", dir=self.keep / "files") as file:
            fetched = self.fetch(client, it.url, Path(file.name)) if client is not None else copied(Path(it.url), Path(file.name), self.bounds.largest)
            name = f"{fetched.sum[:24]}-{(it.length or 0) // 10**6}{'' if it.loudness is None else f'{it.loudness:+g}'}"
            made = making.read(self.store / key[0] / name)
            if made is None:
                choices = Choices(it.loudness, self.bounds.patience, self.bounds.threads)
                made = making.make(self.children, Path(file.name), it.ladder, self.store / key[0] / name, it.id, choices, it.length)
                self.made_count += 1
                self.say("", f"ad {it.id}: MediaFile {shown(it.url)} is {len(made.pieces)} pieces for {len(it.ladder.renditions)} renditions, after {time.monotonic() - begun:.1f} s")
        with self.lock:
            self.there[key[0], name] = made
            self.failed.pop(key, None)
        self.note(key, Known(name, fetched.tag, time.time()))
        self.clean()

    def fetch(self, client: Asking, url: str, to: Path) -> download.Fetched:
        """Has `client` fetch what is at `url` into the file `to`; raises Fault or OSError."""
        with open(to, "wb") as file:
            return Download(client, url, file, self.bounds.largest, FETCH, lambda: self.is_over).run()

    def note(self, key: tuple[str, str], known: Known) -> None:
        """The ad of this `key` is `known`, which is kept. Raises OSError."""
        with self.writing:
            with self.lock:
                self.known.pop(key, None)
                self.known[key] = known
                while len(self.known) > MOST_KNOWN:
                    self.known.pop(next(iter(self.known)))
                its = list(self.known.items())
            write_aside(self.keep / FILES, json.dumps([[*name, it.ad, it.tag, it.at] for name, it in its]).encode())

    # ---- room

    def room(self) -> int:
        """How many bytes the ads may take yet."""
        self.clean()
        return self.bounds.room - self.bytes

    def clean(self) -> None:
        """Takes ads away that weren't used for long, and the least used ones if there is no room."""
        with self.writing:
            self.cleaned, now = time.monotonic(), time.time()
            its = self.used()
            self.sizes = {path: size for _, size, path in its}
            self.bytes = sum(self.sizes.values())
            for used, size, path in sorted(its):
                is_old = now - used > self.bounds.days * DAY
                if is_old or (self.bytes > self.bounds.room and now - used >= RECENT):
                    self.take_away(path)
                    self.bytes -= size
            there = {(path.parent.name, path.name) for path in self.sizes if path.is_dir()}
            with self.lock:
                self.known = {key: it for key, it in self.known.items() if (key[0], it.ad) in there}

    def used(self) -> list[tuple[float, int, Path]]:
        """The ads on disk: when each was used last, in seconds since 1970, how many bytes it has, and its folder."""
        found = []
        for path in self.store.glob("*/*"):
            try:
                used = (path / making.FACTS).stat().st_mtime
            except OSError:
                continue
            if not path.name.startswith(making.ASIDE):
                found.append((used, self.sizes.get(path) or size_of(path), path))
        return found

    def take_away(self, path: Path) -> None:
        """Takes the ad in the folder `path` away: as a whole, whoever asks for it meanwhile."""
        aside = path.with_name(f"{making.ASIDE}{path.name}")
        with self.lock:
            self.there.pop((path.parent.name, path.name), None)
            self.known = {key: it for key, it in self.known.items() if (key[0], it.ad) != (path.parent.name, path.name)}
            with contextlib.suppress(OSError):
                os.replace(path, aside)
        shutil.rmtree(aside, ignore_errors=True)


def known_in(path: Path) -> dict[tuple[str, str], Known]:
    """What the file `path` says of files; nothing if it doesn't read."""
    try:
        return {(str(ladder), str(url)): Known(str(ad), str(tag), float(at)) for ladder, url, ad, tag, at in json.loads(path.read_bytes())}
    except (OSError, ValueError, TypeError, RecursionError):
        return {}


def size_of(folder: Path) -> int:
    """How many bytes the files in the `folder` and those in it have. A file of several names counts once: makings share what is equal in them."""
    sizes = dict[tuple[int, int], int]()
    for place, _, names in os.walk(folder):
        for name in names:
            try:
                it = os.lstat(os.path.join(place, name))
                sizes[it.st_dev, it.st_ino] = it.st_size
            except OSError:
                continue
    return sum(sizes.values())


def copied(source: Path, to: Path, most: int) -> download.Fetched:
    """Copies the file `source`, of at most `most` bytes, to the file `to`; raises Fault or OSError."""
    found = source.stat()
    if found.st_size > most:
        raise Fault(f"the file has {found.st_size} bytes, over {most}")
    shutil.copyfile(source, to)
    with open(to, "rb") as it:
        return download.Fetched(hashlib.file_digest(it, "sha256").hexdigest(), found.st_size, f"{found.st_mtime_ns}")
