"""adsplice-decide: answers adsplice-feed's questions by a VAST ad server, and makes its ads for the channels' ladders."""
from __future__ import annotations

import argparse
import gc
import threading
import time
from collections.abc import Callable
from pathlib import Path

from . import answering, decide_check, decide_settings, serving, tracking, web, words
from .ad_store import Bounds, Store
from .decide_figures import Figures
from .decide_ladders import Watch, text_of
from .decide_settings import Section, Settings
from .deciding import Channel, question_of
from .words import Fault

SELDOM = 100_000  # objects that are made until Python looks for garbage: the elements of the longest document are fewer

HELP = """Answers the questions of adsplice-feed by a VAST ad server (IAB VAST 2.0 to 4.2), and makes its ads for the channels' ladders by ffmpeg.

  adsplice-decide --config /etc/adsplice/decide.ini
  adsplice-decide --config /etc/adsplice/decide.ini --check      says whether all that it needs is there, and ends

The feed asks it by `ask = http://127.0.0.1:9083/decide`. GET /metrics has figures for Prometheus.

A section of FILE is a channel, or a ladder's programme, by the name that the feed has for it:

  vast       URL of the ad server, with macros: [BREAKMAXDURATION], [CACHEBUSTING], [TIMESTAMP], [ADCOUNT] and the others of VAST 4.2
  macros     lines NAME=VALUE for others, as CONTENTID=news-1
  ladder     file of adsplice-condition --profile; without it adsplice-decide looks at the playlists of the feed
  slate      file of a film that fills up what the ads leave
  timeout    seconds that the ad server has (0.7); less than the feed's `hold`
  length     seconds of a break whose signal says none
  prefetch   seconds before a break of the schedule at which it asks for ads (60); without a schedule it asks once in as many seconds
  schedule   file with a line for each break: its begin in UTC, and its seconds
  loudness   LUFS of the ads' sound, as -23; as it is, if there is none
  redirects  no: hosts other than the ad server's aren't asked (yes)
  networks   to which wrappers, films and calls may lead beside public addresses, as 10.0.0.0/8 (the ad server's own addresses)
  tracking   yes: Impression and quartiles are called once for each ad that was shown whole (no); needs as-run
  as-run     log of adsplice-monitor

[DEFAULT] has what is of all channels, too:

  store      folder of the ads that are made     at         URL under which it is published
  keep       folder of what is kept              feed       feed.ini
  processes  ads that are made at a time (1)     threads    of each coder (1)
  room       bytes of all ads (50G)              days       after its last use that an ad stays (30)
  largest    bytes of an ad's file (2G)          patience   seconds for an ad (900)

Exit status: 0 after SIGTERM, SIGINT or SIGHUP, and after --check if all is there; 1 a fault; 2 wrong words."""


def read_words(arguments: list[str]) -> argparse.Namespace:
    """What the words `arguments` say."""
    it = words.parser("adsplice-decide", HELP)
    it.add_argument("--config", type=Path, required=True, metavar="FILE", help="the settings")
    it.add_argument("--listen", type=answering.address_of, default="127.0.0.1:9083", metavar="HOST:PORT", help="of loopback (127.0.0.1:9083)")
    it.add_argument("--check", action="store_true", help="says whether all that is needed is there, and ends")
    return it.parse_args(arguments)


class Decider:
    """All channels of `settings`, and the store of their ads. `say` prints a line."""

    def __init__(self, settings: Settings, say: Callable[[str], None]) -> None:
        shop = settings.shop
        self.settings, self.say, self.ending = settings, say, threading.Event()
        bounds = Bounds(shop.processes, shop.threads, shop.patience, shop.largest, shop.room, shop.days)
        self.store = Store(shop.store, shop.keep, shop.at, bounds, lambda word, text: self.tell("store", "store", "-", word or "-", text))
        self.channels = {it.name: Channel(it, self.store, self.teller(it.name), shop.keep / "answers" / it.name, shop.keep / "given" / it.name, shop.keep / "balance" / f"{it.name}.json")
                         for it in settings.sections}
        self.watches = [self.watch(it) for it in settings.sections]
        self.figures = Figures(self.channels, self.store)
        self.trackers = [self.tracker(it) for it in settings.sections if it.tracking]

    # ---- lines

    def tell(self, channel: str, who: str, status: str, word: str, text: str) -> None:
        """Prints a line of a `channel`: of `who`, with a `status`, a `word` and a `text`."""
        self.say(f"{words.now_text()} {channel} {who.replace(' ', '_')} {status} {word}: {text}")

    def teller(self, channel: str) -> Callable[[str, str, str, str], None]:
        """What prints a line of the `channel`."""
        return lambda who, status, word, text: self.tell(channel, who, status, word, text)

    # ---- parts

    def watch(self, section: Section) -> Watch:
        """What looks at the ladder of `section`."""
        channel, before = self.channels[section.name], [""]

        def changed(is_other: bool) -> None:
            channel.ladder = watch.ladder
            if is_other and watch.ladder is not None:
                self.tell(section.name, "ladder", "-", "-", text_of(watch.ladder))

        def trouble(text: str) -> None:
            if text and text != before[0]:
                self.tell(section.name, "ladder", "-", "NoLadder", f"{text}; it is looked at again with growing pauses")
            before[0] = text

        watch = Watch(section, self.settings.shop, self.store.children, changed, trouble)
        return watch

    def tracker(self, section: Section) -> tracking.Tracker:
        """What calls for the ads of `section` that were shown."""
        channel = self.channels[section.name]

        def is_its(name: str) -> bool:
            ladder = channel.ladder
            return name == section.name or (ladder is not None and any(name == f"{section.name}-{it}" for it in ladder.renditions))

        def count(key: str) -> None:
            with channel.lock:
                channel.counts.tracked[key] += 1

        keep = self.settings.shop.keep
        assert section.as_run is not None
        return tracking.Tracker(section.name, section.as_run, channel.answers, keep / "tracked" / f"{section.name}.jsonl", section.outside(), is_its,
                                self.teller(section.name), count)

    # ---- its life

    def begin(self) -> None:
        """Begins all; raises Fault or OSError."""
        for it in self.watches:
            it.begin()
        self.store.begin()
        for channel in self.channels.values():
            channel.begin(time.time_ns())
        if any(it.vast.startswith("https:") for it in self.settings.sections):
            web.certificates()  # (reading them takes a tenth of a second, which the first question hasn't)
        for run in [*(it.run for it in self.watches), *(it.run for it in self.channels.values()), *(it.run for it in self.trackers)]:
            threading.Thread(target=run, args=(self.ending,), daemon=True).start()

    def end(self) -> None:
        """Ends all."""
        self.ending.set()
        self.store.end()
        for it in self.channels.values():
            it.pool.shutdown(False, cancel_futures=True)

    def decide(self, body: bytes) -> serving.Reply:
        """The answer to the question that the `body` asks."""
        try:
            question = question_of(body)
        except ValueError as fault:
            self.figures.strange += 1
            self.tell("decide", "question", "400", "Wrong", str(fault))
            return serving.line(400, str(fault))
        channel = self.channels.get(question.channel)
        if channel is None:
            self.figures.strange += 1
            self.tell("decide", "question", "404", "Wrong", f"the settings have no section [{question.channel[:40]}]")
            return serving.line(404, "there is no such channel")
        return (*channel.answer(question), answering.JSON)


def main(arguments: list[str]) -> int:
    """Answers questions as the words `arguments` ask for, until a signal ends it; answers the exit status."""
    said = read_words(arguments)
    try:
        settings = decide_settings.read(said.config)
        if said.check:
            words.ends_cleanly()
            return decide_check.run(settings)
        return serve(settings, said.listen)
    except (Fault, OSError) as fault:
        words.fail("adsplice-decide", str(fault))


def look_seldom() -> None:
    """Python looks for garbage less often, and not in what lasts: a look through all objects took half the time of an answer's bound."""
    gc.collect()
    gc.freeze()
    gc.set_threshold(SELDOM)


def serve(settings: Settings, listen: str) -> int:
    """Answers questions by `settings` at the address `listen` until a signal ends it; answers the exit status."""
    ending = words.ends_by_signals()
    decider = Decider(settings, words.Teller().say)
    try:
        decider.begin()
        look_seldom()
        server = answering.listening(listen, decider.decide, decider.figures.text)
        try:
            decider.tell("decide", "decide", "-", "-", f"answers questions on {listen} for {', '.join(decider.channels)}")
            while not ending.wait(3600):
                pass
        finally:
            server.close()
    finally:
        decider.end()
    return 0
