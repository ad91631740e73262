"""The faults of check_day: what happens, to which programme, when it begins, and which alarms may name it."""
from __future__ import annotations

import json
import os
import signal
import time
from collections.abc import Callable
from dataclasses import dataclass

import media
from configured_lists import last_number
from day_plant import PROGRAMMES, Day
from tools import write_aside

STILL, LATE, AWAY = "AdspliceChannelStandsStill", "AdspliceChannelLate", "AdspliceChannelAway"
PROCESS, REFUSED, FALLBACK, EMPTY = "AdspliceProcessAway", "AdspliceDecisionRefused", "AdspliceFallbackWasShown", "AdspliceBreakWasEmpty"
UNWRITTEN, UNKEPT, APART = "AdspliceAsRunUnwritten", "AdspliceEventsUnkept", "AdspliceRenditionsApart"
DECISIONS = (REFUSED, FALLBACK, "AdspliceDecisionLate")
CLOCK = (LATE, EMPTY, "AdspliceClockWasSet", "AdspliceClockBehind", "AdspliceClockAhead", APART)
MANY = 2_000  # decision files
WAIT = 35.0  # seconds that a fault waits for its place in a break, at the most


@dataclass(frozen=True)
class Fault:
    """A fault: its name, the `programme` that it hits (all, if it is empty), a sentence, what does it and undoes it again, the alarms
    that may name it, whether one of them is due (else it heals before that), and how many seconds the packager's list has of the next
    break when it begins (less than 0: before that; none: at any time). `is_of_process`: it hits the other programmes of its process, too."""

    name: str
    programme: str
    text: str
    act: Callable[[Day], None]
    alarms: tuple[str, ...] = ()
    into: float | None = None
    is_due: bool = True
    is_of_process: bool = False

    def programmes(self, day: Day) -> list[str]:
        """The programmes that it hits."""
        if self.is_of_process:
            return [it for it in PROGRAMMES if day.port_of(it) == day.port_of(self.programme)]
        return [self.programme] if self.programme else list(PROGRAMMES)

    def happen(self, day: Day) -> float:
        """Lets it happen in its place, and ends it; answers when it began."""
        if self.into is not None:
            end, relay = time.monotonic() + WAIT, day.of(self.programme)[0]
            while relay.seconds_into_break() != self.into and time.monotonic() < end:
                time.sleep(0.1)
        begun = time.monotonic()
        self.act(day)
        return begun


def origin(place: str, programme: str, mood: str, seconds: float, renditions: range | None = None) -> Callable[[Day], None]:
    """The origin of a programme's renditions is in a mood for so long."""
    def act(day: Day) -> None:
        more = () if renditions is None else (renditions,)
        day.origins.set(place, programme, mood, *more)
        time.sleep(seconds)
        day.origins.set(place, programme, "", *more)
    return act


def relays(programme: str, seconds: float, before: dict[str, object], after: dict[str, object]) -> Callable[[Day], None]:
    """The relays of a programme have moods `before`, and after so many seconds those of `after`."""
    def act(day: Day) -> None:
        for it in day.of(programme):
            it.change(**before)
        time.sleep(seconds)
        for it in day.of(programme):
            it.change(**after)
    return act


def packager_begins_again(programme: str, seconds: float) -> Callable[[Day], None]:
    """The packager of a programme is away for so long, and begins again with number 0 in all renditions."""
    def act(day: Day) -> None:
        for it in day.of(programme):
            it.change(is_frozen=True)
        time.sleep(seconds)
        begin = last_number(day.of(programme)[0].playlist)
        for it in day.of(programme):
            it.change(begin=begin, is_frozen=False)
    return act


def decision(programme: str, mood: str, renditions: slice = slice(None)) -> Callable[[Day], None]:
    """The next decision of a programme's renditions comes so; the fault lasts until its break has begun."""
    def act(day: Day) -> None:
        for it in day.of(programme)[renditions]:
            it.mood = mood
        end = time.monotonic() + WAIT
        while any(it.mood for it in day.of(programme)) and time.monotonic() < end:
            time.sleep(0.1)
        time.sleep(12)
    return act


def stopped(process: Callable[[Day], int], seconds: float) -> Callable[[Day], None]:
    """A process is stopped, and goes on after so many seconds."""
    def act(day: Day) -> None:
        number = process(day)
        os.kill(number, signal.SIGSTOP)
        try:
            time.sleep(seconds)
        finally:
            os.kill(number, signal.SIGCONT)
    return act


def feed_is_killed(day: Day) -> None:
    """The feed is killed, and started again a second later."""
    day.processes.end(day.feed, hard=True)
    time.sleep(1)
    day.feed = day.start_feed()


def monitor_is_killed(day: Day) -> None:
    """The monitor is killed, and started again five seconds later."""
    day.processes.end(day.monitor, hard=True)
    time.sleep(5)
    day.monitor = day.start_monitor()


def disk_is_full(day: Day) -> None:
    """The disk of what is kept is full for 25 s."""
    day.disk.fill()
    try:
        time.sleep(25)
    finally:
        day.disk.free()


def many_files(day: Day) -> None:
    """MANY decision files for breaks to come lie in the folders of `film` for 25 s."""
    paths = []
    for it in day.of("film"):
        for number in range(MANY):
            ads = media.pod(it.plan.own, it.ads)
            paths.append(f"{it.decisions}/later-{number}.json")
            write_aside(paths[-1], json.dumps({"breaks": [{"id": f"later-{number}", "ads": ads}]}))
    time.sleep(25)
    for path in paths:
        if os.path.exists(path):
            os.remove(path)


FAULTS = (
    Fault("lag", "news", "an edge gives the playlist of 8 s ago, for 8 s", origin("first", "news", "lags", 8), (STILL, LATE)),
    Fault("cut-way", "sport", "the way to one rendition is cut for 9 s, with a decision meanwhile", origin("first", "sport", "away", 9, range(2, 3)),
          (STILL, LATE, APART), -12),
    Fault("packager", "film", "the packager is away for 3 s, and begins again with number 0", packager_begins_again("film", 3), (STILL, LATE), is_due=False),
    Fault("killed-in-break", "news", "adsplice is killed within a break, and started again after 1 s", lambda day: day.kill_adsplice("news", 1), (), 4, False, True),
    Fault("stopped", "sport", "adsplice is stopped for 20 s", stopped(lambda day: day.plant.running[day.port_of("sport")].pid, 20), (PROCESS, STILL, LATE), is_of_process=True),
    Fault("disk", "", "the disk of the as-run log and of what the feed keeps is full for 25 s", disk_is_full, (UNWRITTEN, UNKEPT, STILL, LATE)),
    Fault("clock-back", "sport", "the packager's clock is 180 s behind for 25 s", relays("sport", 25, {"clock": -180.0}, {"clock": 0.0}), CLOCK),
    Fault("late-decision", "news", "a decision comes when its break has begun", decision("news", "late"), DECISIONS),
    Fault("second-origin", "film", "the first of two origins fails for 25 s", origin("first", "film", "away", 25), ("AdspliceOriginSecond", STILL)),
    Fault("mistake", "sport", "a decision file has a mistake", decision("sport", "mistake"), (REFUSED, FALLBACK)),
    Fault("silent", "film", "no decision comes for a break", decision("film", "silent"), (FALLBACK,)),
    Fault("many-files", "film", f"{MANY:,} decision files for breaks to come lie there for 25 s", many_files, DECISIONS, is_due=False),
    # (lists that stand still for six seconds by these are told)
    Fault("nginx", "", "nginx is killed, and started again after 3 s", lambda day: day.kill_nginx(3), (STILL, LATE), is_due=False),
    Fault("feed-killed", "", "the feed is killed, and started again after 1 s", feed_is_killed, (STILL, LATE), is_due=False),
    Fault("feed-stopped", "", "the feed is stopped for 15 s", stopped(lambda day: day.feed.pid, 15), (STILL, LATE, "AdspliceFeedHangs")),
    Fault("monitor", "", "the monitor is killed, and started again after 5 s", monitor_is_killed, is_due=False),
    Fault("slow-origin", "sport", "the origin gives no answer within 8 s, for 16 s", origin("first", "sport", "hangs", 16), (STILL, LATE)),
    Fault("half-lists", "news", "playlists are cut off within their last line for 8 s", relays("news", 8, {"is_cut": True}, {"is_cut": False}), (STILL, LATE)),
    Fault("target", "film", "the packager says another target duration for 10 s", relays("film", 10, {"target": 3}, {"target": 0}), is_due=False),
    # (long after the other decision that `news` lacks: an alarm that looks back five minutes can't ring anew before)
    Fault("one-rendition", "news", "a decision comes for one rendition alone", decision("news", "absent", slice(1, 2)), DECISIONS),
)
