"""adsplice-monitor: figures of channels and processes for Prometheus, a check for Nagios and cron, and the as-run log."""
import argparse
import json
import threading
import time
from collections.abc import Iterator
from pathlib import Path

from prometheus_client import CollectorRegistry, generate_latest, start_http_server
from prometheus_client.core import CounterMetricFamily, GaugeMetricFamily, Metric
from prometheus_client.registry import Collector

from . import shown_breaks, words
from .as_run import BEAT, KEYS, SECONDS, SOLD, Log
from .decisions import ANSWERS
from .journal import BEAT as BEAT_FILE
from .kept import EVENTS
from .machines import SAID
from .store import repairs_kept
from .origins import NAMES
from .playlist import SECOND
from .reconcile import report
from .watch import UNFILLABLE, WORDS, Watch
from .watched import Watched
from .web import Client
from .words import Fault

HELP = """Figures of adsplice's channels for Prometheus, a check for cron, and an as-run log.

  adsplice-monitor --at http://127.0.0.1:8090 --viewers http://127.0.0.1:8080 --channel news --process http://127.0.0.1:8081 \\
                   --kept /var/lib/adsplice/kept --as-run /var/lib/adsplice/as-run.jsonl
  adsplice-monitor --config /etc/adsplice/feed.ini --once      the channels of a feed; prints the figures, for Nagios and cron
  adsplice-monitor --reconcile /var/lib/adsplice/decisions/news --as-run as-run.jsonl --channel news     what was sold and shown
  adsplice-monitor --breaks --as-run /var/lib/adsplice/as-run.jsonl      what each rendition showed of each break

It serves /metrics (--listen) until a signal ends it. With --once it watches each channel until its playlist has changed or its limit
is over, prints the figures behind a comment that says what is wrong, and ends.

A channel is late if its playlist's end is further behind real time than --late. It stands still if its playlist didn't change for
--still. Both are three target durations by default. A playlist that has ended (EXT-X-ENDLIST) is neither.

Figures of refused pushes, and the as-run log, need the logs of adsplice-feed --keep (--kept, or `keep` of --config).

--reconcile compares the decision files of a folder with the as-run log: which sold break was shown whole, in part or not, and why; and
each ad's count and seconds. With --kept it also names the files that adsplice refused. With several machines, name the log of each
(--as-run A --as-run B): a break counts once, by the machine that showed most of it.

--breaks prints what each rendition of a programme showed of each break, by the as-run log. Channels are renditions of one programme if
they have one name up to the last `-`.

Exit status: 0 after SIGTERM, SIGINT or SIGHUP. With --once 0 if all is well, 2 if a channel is late, stands still or doesn't answer, or a
process doesn't answer. With --reconcile 0 if all that was sold was shown whole, else 2. With --breaks 0 if each break was the same in all
renditions, else 2. 1 a fault; 2 also for invalid arguments."""
CRITICAL = 2
BUILD = "adsplice.build"  # which ./install writes beside the program
LAST = 2.0  # seconds for which what is known is still written at the end
AGAIN = 3.0  # seconds for which a channel without a list is looked at again
RENEWED = 10.0  # seconds between two looks at which channels there are
OLD_MACHINE = 10.0  # seconds after which what a feed said of its machine is old
MACHINES = {"store_up": "Whether the store of several machines does what this one's feed asks", "leads": "Programmes that this machine leads",
            "replicas_behind": "Programmes of which this machine's controllers lack what was given", "replicas_ill": "Programmes whose controllers don't answer on this machine",
            "lead_moves": "How often the lead of one programme went to another machine within 10 minutes"}
AWAY = (0, 502, 504)  # statuses that say that a process doesn't answer


def read_words(arguments: list[str]) -> argparse.Namespace:
    """What the `arguments` say; ends the program if they are invalid."""
    it = words.parser("adsplice-monitor", HELP)
    of_watched(it.add_argument_group("what is watched"))
    of_what_is_done(it.add_argument_group("what is done"))
    said = it.parse_args(arguments)
    if said.reconcile is not None or said.breaks:
        if not said.as_run:
            it.error(f"--{'breaks' if said.breaks else 'reconcile'} needs --as-run")
        return said
    if said.config is None and not (said.channel and said.at):
        it.error("--channel and --at are needed, or --config")
    if len(said.as_run) > 1 and not said.reconcile:
        it.error("several --as-run go with --reconcile and --breaks alone")
    if said.as_run and said.kept is None and said.config is None:
        it.error("--as-run needs --kept")
    return said


def of_watched(it: argparse._ArgumentGroup) -> None:
    """Adds the options of what is watched to the group `it`."""
    it.add_argument("--config", type=Path, metavar="FILE", help="the config file of adsplice-feed: its channels, addresses and logs")
    it.add_argument("--channel", type=words.channel_name, action="append", default=[], metavar="NAME", help="a channel; may be repeated")
    it.add_argument("--at", type=words.web_address, metavar="URL", help="adsplice's address for PUT, which answers `why`")
    it.add_argument("--viewers", type=words.web_address, metavar="URL", help="the viewers' address (that of --at)")
    it.add_argument("--process", type=words.web_address, action="append", default=[], metavar="URL", help="a process of adsplice; may be repeated")
    it.add_argument("--kept", type=Path, metavar="DIR", help="the folder of adsplice-feed --keep")
    it.add_argument("--as-run", type=Path, action="append", default=[], metavar="FILE", help="the as-run log, to which lines are added; with --reconcile that of each machine")


def of_what_is_done(it: argparse._ArgumentGroup) -> None:
    """Adds the options of what the monitor does to the group `it`."""
    it.add_argument("--listen", default="127.0.0.1:9465", metavar="HOST:PORT", help="for Prometheus (127.0.0.1:9465)")
    it.add_argument("--interval", type=words.seconds, default=1.0, metavar="SECONDS", help="between two polls (1)")
    it.add_argument("--late", type=words.seconds, metavar="SECONDS", help="from when on a channel is late (three target durations)")
    it.add_argument("--still", type=words.seconds, metavar="SECONDS", help="from when on a channel stands still (three target durations)")
    it.add_argument("--once", action="store_true", help="print the figures, and end")
    it.add_argument("--breaks", action="store_true", help="print what each rendition of a programme showed of each break, by the as-run log")
    it.add_argument("--reconcile", type=Path, metavar="DIR", help="compare a channel's folder of decisions with the as-run log")


class Processes:
    """The processes at `urls`, and whether each answers."""

    def __init__(self, urls: list[str]) -> None:
        self.urls, self.client = urls, Client(3)
        self.up: dict[str, bool] = {}

    def look(self) -> None:
        """Asks each process; any answer of its own will do."""
        self.up = {it: self.client.ask("GET", f"{it}/").status not in AWAY for it in self.urls}


class Figures(Collector):
    """The figures of the channels that are `watched`, and of `processes`, as Prometheus takes them."""

    def __init__(self, watched: Watched, processes: Processes) -> None:
        self.watched, self.processes = watched, processes

    def collect(self) -> Iterator[Metric]:
        """All figures as they are now."""
        up = GaugeMetricFamily("adsplice_up", "Whether a process answers", labels=["process"])
        for url, is_up in self.processes.up.items():
            up.add_metric([url.partition("://")[2]], float(is_up))
        yield up
        build = GaugeMetricFamily("adsplice_build_info", "The build that is installed beside the monitor", labels=["version", "commit"])
        build.add_metric(build_beside(Path(__file__).parents[1]), 1)
        yield build
        channels = GaugeMetricFamily("adsplice_programme_channels", "Channels of a programme with a master playlist", labels=["programme"])
        for name, count in self.watched.programmes.items():
            channels.add_metric([name], count)
        yield channels
        yield from self.lists()
        yield from self.pushes()
        yield from self.machines()

    def machines(self) -> Iterator[Metric]:
        """The figures of this machine as one of several that have a store, as its feed keeps them."""
        found = {name: GaugeMetricFamily(f"adsplice_{name}", text, labels=["machine"]) for name, text in MACHINES.items()}
        differed = CounterMetricFamily("adsplice_replica_differed", "Times that a channel was made anew here since it wasn't as the others", labels=["machine"])
        folders = {it.kept.path.parent for it in self.watched.all() if it.kept is not None}
        for path in sorted(path for it in folders for path in it.glob(f"*{SAID}")):
            said = said_in(path)
            if said is None:
                continue
            for name, key in zip(found, ("up", "leads", "behind", "ill", "moves")):
                found[name].add_metric([path.stem], said[key])
            differed.add_metric([path.stem], said["differed"])
        yield from found.values()
        yield differed

    def lists(self) -> Iterator[Metric]:
        """The figures of the channels' lists and breaks."""
        answers = GaugeMetricFamily("adsplice_channel_up", "Whether a channel's playlist is answered", labels=["channel"])
        behind = GaugeMetricFamily("adsplice_end_behind_seconds", "How far the playlist's end is behind real time", labels=["channel"])
        still = GaugeMetricFamily("adsplice_unchanged_seconds", "Seconds since the playlist changed", labels=["channel"])
        target = GaugeMetricFamily("adsplice_target_duration_seconds", "EXT-X-TARGETDURATION", labels=["channel"])
        ended = GaugeMetricFamily("adsplice_ended", "Whether the playlist has ended (EXT-X-ENDLIST)", labels=["channel"])
        breaks = GaugeMetricFamily("adsplice_breaks", "Known breaks by the word of why", labels=["channel", "why"])
        unfillable = GaugeMetricFamily("adsplice_breaks_unfillable", "Listed breaks that SCTE 35 signals and that can't be filled", labels=["channel", "why"])
        lines = CounterMetricFamily("adsplice_as_run", "Breaks that were written to the as-run log, by the pod that was shown", labels=["channel", "pod", "why"])
        begun = CounterMetricFamily("adsplice_breaks_begun", "Breaks that have begun, by the pod in their place", labels=["channel", "pod", "why"])
        shown = CounterMetricFamily("adsplice_as_run_seconds", "Seconds of pods that were shown, by the pod", labels=["channel", "pod"])
        sold = CounterMetricFamily("adsplice_as_run_sold_seconds", "Seconds of the decided pods of breaks that are over", labels=["channel"])
        waiting = GaugeMetricFamily("adsplice_as_run_waiting", "Lines of the as-run log that can't be written", labels=["channel"])
        for it in self.watched.all():
            with it.lock:
                answers.add_metric([it.name], float(it.status == 200))
                late = it.behind()
                if late is not None:
                    behind.add_metric([it.name], late)
                still.add_metric([it.name], it.unchanged())
                ended.add_metric([it.name], float(it.is_ended))
                if it.target:
                    target.add_metric([it.name], it.target)
                for word in WORDS:
                    breaks.add_metric([it.name, word], it.words[word])
                if (found := it.unfillable()) is not None:
                    for word in UNFILLABLE:
                        unfillable.add_metric([it.name, word], found[word])
                if it.as_run:
                    for pod, why in dict.fromkeys([*KEYS, *it.as_run.counts, *it.as_run.begun]):  # (each from 0 on, so that its first one is seen to come)
                        lines.add_metric([it.name, pod, why], it.as_run.counts[pod, why])
                        begun.add_metric([it.name, pod, why], it.as_run.begun[pod, why])
                    for pod in SECONDS:
                        shown.add_metric([it.name, pod], it.as_run.lengths[pod] / SECOND)
                    sold.add_metric([it.name], it.as_run.lengths[SOLD] / SECOND)
                    waiting.add_metric([it.name], len(it.as_run.waiting) + it.as_run.lost)
        yield from (answers, behind, still, target, ended, breaks, unfillable, lines, begun, shown, sold, waiting)

    def pushes(self) -> Iterator[Metric]:
        """The figures of what the feeds kept."""
        answers = CounterMetricFamily("adsplice_feed_requests", "Requests of the feed by status and fault", labels=["channel", "what", "status", "fault"])
        unread = CounterMetricFamily("adsplice_feed_unread", "Times that the feed couldn't read its origin", labels=["channel"])
        holes = CounterMetricFamily("adsplice_feed_unkept", "Times that the feed couldn't keep its events", labels=["channel"])
        restarts = CounterMetricFamily("adsplice_feed_restarts", "Times that a channel's feed began anew after a fault that nobody foresaw", labels=["channel"])
        repairs = CounterMetricFamily("adsplice_feed_repairs", "Lists that the feed put right, by the kind of repair", labels=["channel", "kind"])
        origins = GaugeMetricFamily("adsplice_feed_origin", "Whether a channel's playlist is read from this one of its two origins", labels=["channel", "place"])
        late = CounterMetricFamily("adsplice_feed_late_decisions", "Decisions that came after their break had begun", labels=["channel"])
        asked = CounterMetricFamily("adsplice_feed_questions", "Questions about breaks, by what became of them", labels=["channel", "answer"])
        absent = CounterMetricFamily("adsplice_feed_absent", "Decisions that weren't given, since an ad of theirs wasn't there", labels=["channel"])
        refused = GaugeMetricFamily("adsplice_feed_refused_timestamp_seconds", "When a decision was refused last, or came late, in seconds since 1970", labels=["channel", "what", "status", "fault"])
        apart = GaugeMetricFamily("adsplice_feed_apart", "Whether a rendition's numbers aren't those of the programme's others", labels=["channel"])
        steps = GaugeMetricFamily("adsplice_feed_step_timestamp_seconds", "When a channel's feed made its last step, in seconds since 1970", labels=["channel"])
        kept = GaugeMetricFamily("adsplice_feed_kept_timestamp_seconds", "When a channel's feed kept its last event, in seconds since 1970", labels=["channel"])
        for it in self.watched.all():
            if it.kept is None:
                continue
            for figure, end in ((steps, BEAT_FILE), (kept, EVENTS)):
                if (at := it.kept.written_at(end)) is not None:
                    figure.add_metric([it.name], at)
            for kind, lists in sorted(repairs_kept(it.kept.path.parent, it.name).items()):
                repairs.add_metric([it.name, kind], lists)
            with it.lock:
                for (what, status, fault), count in sorted(it.kept.answers.items()):
                    answers.add_metric([it.name, what, status, fault], count)
                unread.add_metric([it.name], it.kept.unread)
                restarts.add_metric([it.name], it.kept.restarts)
                holes.add_metric([it.name], it.kept.holes)
                late.add_metric([it.name], it.kept.late)
                absent.add_metric([it.name], it.kept.absent)
                for word in ANSWERS:
                    asked.add_metric([it.name, word], it.kept.asked[word])
                apart.add_metric([it.name], float(it.kept.is_apart))
                for key, last in sorted(it.kept.refused.items()):
                    refused.add_metric([it.name, *key], last)
                for place, name in enumerate(NAMES if it.kept.origin else (), 1):
                    origins.add_metric([it.name, name], float(it.kept.origin == place))
        yield from (answers, unread, restarts, holes, repairs, origins, late, asked, absent, refused, apart, steps, kept)


def build_beside(folder: Path) -> tuple[str, str]:
    """The version and the commit that adsplice.build in the `folder` says; `unknown` for what it doesn't say."""
    try:
        lines = (folder / BUILD).read_text(encoding="utf-8", errors="replace")[:4096].split("\n")
    except OSError:
        lines = []
    said = dict(line.partition(" ")[::2] for line in lines)
    return said.get("version", "unknown"), said.get("commit", "unknown")


def said_in(path: Path) -> dict[str, int] | None:
    """What the file `path` says of a machine, with a store that isn't up if it is old; none if it doesn't read."""
    try:
        said = json.loads(path.read_bytes()[:4096])
        found = {name: int(said[name]) for name in ("up", "leads", "behind", "ill", "moves", "differed")}
        return found | ({"up": 0} if time.time() - path.stat().st_mtime > OLD_MACHINE else {})
    except (OSError, ValueError, KeyError, TypeError, RecursionError):
        return None


def is_open(watch: Watch, begun: bytes, until: float) -> bool:
    """Whether `watch` is to be looked at again: its list is still the one that it `begun` with, and isn't late or still yet; or
    it has no list, as while its channel is made anew, and `until` (a moment of the monotonic clock) hasn't come."""
    if watch.status != 200:
        return time.monotonic() < until
    return watch.body == begun and not watch.troubles() and not watch.is_ended


def once(watched: Watched, processes: Processes, registry: CollectorRegistry, interval: float) -> int:
    """Looks at each of the `watched` channels until its list has changed or its limit is over, every `interval` seconds; prints the figures
    of `registry`, and answers the exit status."""
    processes.look()
    watches = watched.all()
    for it in watches:
        it.judge()
    begun, until = {it.name: it.body for it in watches}, time.monotonic() + AGAIN
    while waiting := [it for it in watches if is_open(it, begun[it.name], until)]:
        time.sleep(interval)
        for it in waiting:
            it.judge()
    troubles = [text for it in watches for text in it.troubles()]
    troubles += [f"the process at {url} doesn't answer" for url, is_up in processes.up.items() if not is_up]
    troubles += [f"the programme {name} has no master playlist yet" for name, count in watched.programmes.items() if not count]
    first = f"CRITICAL: {', and '.join(troubles)}" if troubles else f"OK: {len(watches)} channels go on"
    words.write_out(f"# {first}\n{generate_latest(registry).decode()}")
    return CRITICAL if troubles else 0


class Trouble:
    """What keeps the monitor from its work on `name`, a channel or a file: told once for as long as it lasts, and when it is over."""

    def __init__(self, name: str) -> None:
        """Nothing is wrong yet."""
        self.name, self.text, self.say = name, "", words.Teller(words.ERROR, lambda line: words.Level.ERROR).say

    def tell(self, text: str) -> None:
        """The trouble is `text` now; none if it is empty."""
        if text != self.text:
            self.text = text
            self.say(f"{words.now_text()} {self.name}: {text or 'all is well again'}")


class Sections:
    """What is wrong with the sections of the config file: each told once for as long as it is so."""

    def __init__(self) -> None:
        self.troubles: dict[str, Trouble] = {}

    def tell(self, name: str, text: str) -> None:
        """The section of the `name` is wrong, since its `text`."""
        self.troubles.setdefault(name, Trouble(name)).tell(f"{text}; goes on without it")


def follow(watch: Watch, ending: threading.Event, interval: float) -> None:
    """Looks at `watch` every `interval` seconds until `ending` is set, or its channel is gone."""
    trouble = Trouble(watch.name)
    while not ending.wait(watch.pause(interval)) and not watch.is_gone:
        try:
            watch.look()
            trouble.tell("")
        except OSError as fault:
            trouble.tell(f"{fault.filename or ''} {fault.strerror}".strip())
        except Exception as fault:  # noqa: BLE001  (one channel's fault isn't to end the figures of the others)
            trouble.tell(f"{type(fault).__name__}: {str(fault)[:200]}")


def follow_all(watches: list[Watch], ending: threading.Event, interval: float) -> None:
    """Follows each of `watches` in a thread of its own."""
    for it in watches:
        threading.Thread(target=follow, args=(it, ending, interval), daemon=True).start()


def renew_on(watched: Watched, path: Path, ending: threading.Event, interval: float) -> None:
    """Looks now and then at which channels the config file at `path` has, and follows those that are new."""
    trouble = Trouble(str(path))
    while not ending.wait(RENEWED):
        try:
            follow_all(watched.take(watched.wanted()), ending, interval)
            trouble.tell("")
        except (Fault, OSError) as fault:
            trouble.tell(f"{fault}; goes on with those before")


def serve(watched: Watched, processes: Processes, registry: CollectorRegistry, said: argparse.Namespace) -> int:
    """Serves the figures of `registry`, as the words `said` ask for, until a signal ends it; answers the exit status."""
    host, _, port = said.listen.rpartition(":")
    try:
        start_http_server(int(port), host, registry)
    except (OSError, ValueError, OverflowError) as fault:
        raise Fault(f"--listen {said.listen}: {getattr(fault, 'strerror', None) or fault}") from None
    ending = words.ends_by_signals()
    follow_all(watched.all(), ending, said.interval)
    threading.Thread(target=look_on, args=(processes, ending, max(said.interval, 1)), daemon=True).start()
    if said.config is not None:
        threading.Thread(target=renew_on, args=(watched, said.config, ending, said.interval), daemon=True).start()
    if log := watched.log:
        beating = threading.Thread(target=beat_on, args=(log, watched, ending), daemon=True)
        beating.start()
    while not ending.wait(3600):
        pass
    if log:
        beating.join(LAST)
    return 0


def beat_on(log: Log, watched: Watched, ending: threading.Event) -> None:
    """Keeps that a monitor runs beside its as-run log `log`, and what it knows of the breaks of the `watched` channels, until `ending` is set."""
    trouble, has_begun, is_last = Trouble(str(log.path)), False, False
    while not is_last:
        is_last = ending.is_set()
        try:
            if not has_begun:
                log.begin()
            has_begun = True
            log.beat(state_of(watched.all()))
            trouble.tell("")
        except OSError as fault:
            trouble.tell(fault.strerror or str(fault))
        except Exception as fault:  # noqa: BLE001  (the sign that a monitor runs isn't to end in silence)
            trouble.tell(f"{type(fault).__name__}: {str(fault)[:200]}")
        ending.wait(BEAT)


def state_of(watches: list[Watch]) -> dict[str, object]:
    """What a later monitor has to know of `watches`, by their names."""
    found: dict[str, object] = {}
    for it in watches:
        if it.as_run:
            with it.lock:
                found[it.name] = it.as_run.state()
    return found


def look_on(processes: Processes, ending: threading.Event, interval: float) -> None:
    """Looks at `processes` every `interval` seconds until `ending` is set."""
    while not ending.is_set():
        processes.look()
        ending.wait(interval)


def main(arguments: list[str]) -> int:
    """Watches; answers the exit status."""
    said = read_words(arguments)
    try:
        if said.reconcile is not None or said.breaks:
            lines, is_well = (shown_breaks.report(said.as_run, said.channel) if said.breaks else report(said.reconcile, said.as_run, said.channel, said.kept))
            words.write_out("".join(f"{words.plain(it)}\n" for it in lines))
            return 0 if is_well else CRITICAL
        watched, processes = Watched(said, Sections().tell), Processes(said.process)
        registry = CollectorRegistry()
        registry.register(Figures(watched, processes))
        if said.once:
            words.ends_cleanly()
            return once(watched, processes, registry, said.interval)
        return serve(watched, processes, registry, said)
    except (Fault, OSError) as fault:
        words.fail("adsplice-monitor", str(fault))
