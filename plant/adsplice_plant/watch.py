"""What a monitor sees of a channel from look to look."""
import threading
import time
from collections import Counter
from dataclasses import dataclass, field

from . import playlist
from .as_run import AsRun
from .kept import Kept
from .web import Client
from .written import Written

WORDS = ("Filled", "NoStart", "NotSignalled", "NotDecided", "DoesNotFit", "Waiting")
UNFILLABLE = ("NoStart", "NotSignalled", "DoesNotFit")  # which no wait changes
SIGNAL = "SCTE35-OUT"  # the attribute of a date range that signals a break
TARGETS = 3  # target durations after which a list is late, or stands still
AT_REST = 1.75  # intervals, and
NEXT = 0.875  # target durations, for which a list that has just changed isn't asked for: the smaller of both
WHY = 5.0  # seconds after which `why` is asked for though nothing says that it has changed
NEVER = float("-inf")
STEP = b"#EXT-X-DISCONTINUITY\n"


@dataclass
class Watch:
    """A channel that is looked at: its `name`, the addresses of its playlist and of its `why`, the client that asks, what its
    feed kept, and its as-run log. `late` and `still` are limits in seconds; none is three target durations."""

    name: str
    playlist_url: str
    why_url: str
    client: Client
    kept: Kept | None = None
    as_run: AsRun | None = None
    late: float | None = None
    still: float | None = None
    lock: threading.Lock = field(default_factory=threading.Lock)
    status: int = 0
    written: Written = field(default_factory=Written)
    end: float | None = None  # when the list ends, in seconds from 1970
    changed: float = field(default_factory=time.monotonic)
    asked: float = NEVER  # when `why` was answered
    judged: tuple[float, float] | None = None  # the time of day, and that of the monotonic clock, at which it is judged; none is now
    told: dict[str, str] = field(default_factory=dict)  # the word of `why` of each break
    words: Counter[str] = field(default_factory=Counter)
    is_gone: bool = False  # whether its channel isn't watched any more

    @property
    def body(self) -> bytes:
        """The list."""
        return self.written.body

    @property
    def target(self) -> int | None:
        """The list's target duration in seconds."""
        return self.written.listed.target

    @property
    def is_ended(self) -> bool:
        """Whether the list has ended."""
        return self.written.listed.is_ended

    def look(self) -> None:
        """Asks for the playlist, and for `why` if that may have changed, and reads what the feed kept since the last look."""
        answer = self.client.ask("GET", self.playlist_url)
        with self.lock:
            self.status = answer.status
            is_new = answer.status == 200 and answer.body != self.body
            if is_new:
                self.take(answer.body)
            has_changed = self.follow() or (is_new and STEP in self.written.fresh)
        if has_changed or time.monotonic() - self.asked >= WHY:
            self.ask_why()
        with self.lock:
            if answer.status == 200 and self.as_run and self.kept and self.asked >= 0:
                self.as_run.look(self.written.listed, self.told, self.kept)

    def follow(self) -> bool:
        """Reads what the feed kept since the last look; whether other breaks are listed by it."""
        if self.kept is None:
            return False
        before = self.kept.ranges.keys()
        self.kept.follow()
        return self.kept.ranges.keys() != before

    def ask_why(self) -> None:
        """Asks for the words of `why`: a break that is filled begins with a discontinuity, and others may change at any time."""
        why = self.client.ask("GET", self.why_url)
        with self.lock:
            self.asked = time.monotonic() if why.status == 200 else NEVER
            if why.status == 200:
                self.told = dict(line.rsplit("\t", 1) for line in why.body.decode("utf-8", "replace").splitlines() if "\t" in line)
                self.words = Counter(self.told.values())

    def unfillable(self) -> Counter[str] | None:
        """How many listed breaks that SCTE 35 signals can't be filled, by the word of `why`; none if nothing is known of what was listed."""
        if self.kept is None:
            return None
        signalled = [name for name, it in self.kept.ranges.items() if SIGNAL in it.attributes]
        return Counter(self.told[it] for it in signalled if self.told.get(it) in UNFILLABLE)

    def take(self, body: bytes) -> None:
        """Takes in the list `body`."""
        self.written.take(body)
        self.changed = time.monotonic()
        end = self.written.listed.end()
        self.end = None if end is None else end / playlist.SECOND

    def pause(self, interval: float) -> float:
        """The seconds to the next look, of which `interval` are between two: somewhat more after the list has changed."""
        rest = min(AT_REST * interval, NEXT * (self.target or 0)) - self.unchanged()
        return max(interval, rest) if self.status == 200 else interval

    def judge(self) -> None:
        """Looks at it, and judges it by this moment, however long the looks at others take."""
        self.look()
        self.judged = time.time(), time.monotonic()

    def behind(self) -> float | None:
        """How many seconds the list's end is behind real time; none if the list states no time."""
        return None if self.end is None else (self.judged[0] if self.judged else time.time()) - self.end

    def unchanged(self) -> float:
        """The seconds since the list changed last."""
        return (self.judged[1] if self.judged else time.monotonic()) - self.changed

    def limit(self, said: float | None) -> float:
        """The limit that was `said`, or three target durations."""
        return said if said is not None else TARGETS * (self.target or 10)

    def troubles(self) -> list[str]:
        """What is wrong with the channel, a sentence each."""
        if self.status != 200:
            return [f"{self.name} answers {self.status or 'nothing'}"]
        if self.is_ended:
            return []
        found, behind = [], self.behind()
        if behind is not None and behind > self.limit(self.late):
            found.append(f"{self.name} is late: its end is {behind:.1f} s behind real time (over {self.limit(self.late):g} s)")
        if self.unchanged() > self.limit(self.still):
            found.append(f"{self.name} stands still for {self.unchanged():.1f} s (over {self.limit(self.still):g} s)")
        return found
