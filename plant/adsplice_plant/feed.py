"""adsplice-feed: polls the playlists of origins and gives them, with decisions, to adsplice."""
import argparse
import threading
import time
from contextlib import suppress
from pathlib import Path

from . import check, config_file, status, words
from . import settings as told
from .collisions import Claims
from .door import open_door
from .fed import Fed, Limits
from .machines import Machines
from .sections import Section, difference
from .serving import address_of
from .settings import Settings
from .store_settings import StoreAt
from .words import Fault

print_line = words.Teller().say
LAST = 0.5  # seconds that steps may take to their end once a signal came
BETWEEN = 0.25  # seconds between two looks at what runs

HELP = """Polls a packager's playlist and gives it to adsplice, with the decisions of its breaks.

  adsplice-feed --channel news --origin http://origin.example/ch/index.m3u8 --at http://127.0.0.1:8090
  adsplice-feed --config /etc/adsplice/feed.ini            several channels, a section each
  adsplice-feed --config /etc/adsplice/feed.ini --check    is all there that the channels need? Read-only
  adsplice-feed --config /etc/adsplice/feed.ini --status   with --store: which machine leads what, and which is behind

The feed polls the origin every half target duration, and PUTs whole playlists that changed. It makes the channel if adsplice lacks it,
and, without --store, never deletes it. It retries origin and adsplice indefinitely, with a back-off that grows to a target duration.

A playlist that breaks RFC 8216 is repaired, and each kind of repair is logged once. A playlist without faults is pushed byte for byte.
Media numbers continue when the packager or adsplice restarts and, with --keep, when the feed does. While the feed can't write its log,
it gives adsplice nothing.

The feed translates signals of breaks (SCTE35-CMD, time_signal, EXT-X-CUE-OUT ..) into date ranges that adsplice knows. With --ask it
asks for the decision of each break once, and holds the break's playlist for the answer.

Rename decision files (*.json) into DIR of --decisions. The feed checks each, gives it to adsplice, and moves it to DIR/done once its breaks
left the playlist. It withdraws a file that you remove before its break begins. A file that is refused stays until it is written again.

--door takes PUT and DELETE of /decisions/CHANNEL/NAME.json over HTTP. A decision is on disk before it is answered.

Renditions of one programme are a channel each: {} in the options stands for the rendition's name. A decision is a file of one name in
each rendition's DIR, and goes to all of them or to none.

The feed logs a line for each change of state on standard output: time, channel, who, status, fault, and what it does. journald gets a
level with each line (journalctl -p warning). SIGHUP (systemctl reload) makes it read FILE of --config again: new sections start, changed
ones restart, removed ones end, and the others go on.

Exit status: 0 after SIGTERM or SIGINT, after SIGHUP without --config, and if --check or --status finds nothing wrong; 1 a fault; 2 invalid
arguments."""

EPILOG = """A config file has a section for each channel, and in [DEFAULT] what all have:

  [DEFAULT]
  at = http://127.0.0.1:8090
  keep = /var/lib/adsplice/kept
  [news]
  origin = http://origin.example/ch/index.m3u8
  decisions = /var/lib/adsplice/decisions/news
  fallback = /etc/adsplice/fallback.json
  ask = http://127.0.0.1:9083/decide

  [sport]
  renditions = 1080 720 360
  origin = http://origin.example/sport/{}/index.m3u8
  decisions = /var/lib/adsplice/decisions/sport-{}
  fallback = /etc/adsplice/fallback-{}.json

  [film]
  origin = http://origin.example/film/master.m3u8
  master = /var/www/film.m3u8

The names of settings are the options' without the first hyphens, with _ for - (empty_subtitles); `unended = yes` is --unended."""
YES_OR_NO = ("yes", "no")


def of_the_channel(it: argparse._ArgumentGroup) -> None:
    """Adds the options of one channel to the group `it`."""
    it.add_argument("--config", type=Path, metavar="FILE", help="the channels, in place of the options of one channel")
    it.add_argument("--channel", type=words.channel_name, metavar="NAME", help="the channel's name")
    it.add_argument("--origin", metavar="URL_OR_FILE", help="the packager's media playlist; or 'A B': B is read while A fails or stands still")
    it.add_argument("--at", type=words.web_address, metavar="URL", help="adsplice's address for PUT, such as http://127.0.0.1:8090")
    it.add_argument("--base", type=str, metavar="URL", help="the playlist's own URL, if it isn't the origin's or the origin is a file")
    it.add_argument("--tolerance", metavar="SECONDS", help="by which a segment may miss a break's start (0.1)")
    it.add_argument("--keep", metavar="DIR", help="the folder of logs: NAME.events for adsplice-monitor and adsplice-explain, PROGRAMME.log for the feed's own restart, and NAME.lock against a second feed")


def of_the_playlist(it: argparse._ArgumentGroup) -> None:
    """Adds the options of the packager's playlist to the group `it`."""
    it.add_argument("--unended", action="store_const", const="yes", help="the packager never ends its last line: take it so")
    it.add_argument("--repair", choices=YES_OR_NO, help="repair playlists that break RFC 8216 (yes)")
    it.add_argument("--target", metavar="SECONDS", help="the target duration of all playlists (that of the first one)")
    it.add_argument("--endless", choices=YES_OR_NO, help="drop EXT-X-ENDLIST, so that the packager can begin again (yes)")
    it.add_argument("--times", choices=YES_OR_NO, help="add EXT-X-PROGRAM-DATE-TIME by this machine's clock if none is stated (yes)")
    it.add_argument("--redirects", choices=YES_OR_NO, help="follow redirects to other hosts, ports and schemes, too (no)")
    it.add_argument("--networks", metavar="NETWORKS", help="to which redirects and master playlists may lead beside public addresses, such as '10.0.0.0/8'")
    it.add_argument("--line", metavar="BYTES", help="the most bytes of a playlist's line (16384)")


def of_decisions(it: argparse._ArgumentGroup) -> None:
    """Adds the options of signals and decisions to the group `it`."""
    it.add_argument("--decisions", metavar="DIR", help="the folder of decision files")
    it.add_argument("--fallback", metavar="FILE", help="a decision file with a fallback: the pod of each break that has none of its own")
    it.add_argument("--slate", metavar="FILE", help="a decision file with a fallback, whose segments fill the rest of a break with a shorter pod")
    it.add_argument("--signals", metavar="TYPES", help="auto, no, or the segmentation types that begin a break, such as '0x34 0x36' (auto)")
    it.add_argument("--nearest", choices=YES_OR_NO, help="move a break's start to the begin of a segment within half a segment (yes)")
    it.add_argument("--ask", metavar="URL", help="where to ask for each break's decision: an ad server, or the word folder")
    it.add_argument("--hold", metavar="SECONDS", help="the most seconds that a playlist waits for an answer (1, and below half a target duration)")
    it.add_argument("--verify", choices=YES_OR_NO, help="check that a decision's ads exist before it is given (no)")
    it.add_argument("--door", type=address_of, metavar="ADDRESS", help="take decisions over HTTP at 127.0.0.1:PORT or on the Unix socket of a path")
    it.add_argument("--keep-days", type=float, default=7.0, metavar="DAYS", help="that files stay in DIR/done (7)")


def of_a_ladder(it: argparse._ArgumentGroup) -> None:
    """Adds the options of a programme in several renditions to the group `it`."""
    it.add_argument("--renditions", metavar="NAMES", help="a channel NAME-R for each rendition R, such as '1080 720 360'")
    it.add_argument("--master", metavar="FILE", help="the origin is a master playlist, whose renditions are channels; FILE is the master playlist for players")
    it.add_argument("--viewers", metavar="URL", help="with --master: where players read channels, such as http://viewers.example (the host of FILE's URL)")
    it.add_argument("--fill", choices=(told.ALL, told.OTHERS), help="fill a break that one rendition can't begin in none, or in the others (all)")
    it.add_argument("--empty-subtitles", metavar="URL", help="with --master: an empty WebVTT piece for subtitles during ads (/empty.vtt at --viewers)")


def of_machines(it: argparse._ArgumentGroup) -> None:
    """Adds the options of several machines to the group `it`."""
    it.add_argument("--store", metavar="ADDRESSES", help="the machines' etcd: 'etcd://10.0.0.1 10.0.0.2 10.0.0.3' (docs/REPLICAS.md)")
    it.add_argument("--machine", metavar="NAME", help="this machine's name (the host's)")
    it.add_argument("--lease", metavar="SECONDS", help="after which another machine leads in place of one that is gone (2)")
    it.add_argument("--status", action="store_true", help="print which machine leads what and which is behind, and end: 0 if all is well, 1 if not")


def of_the_process(it: argparse._ArgumentGroup) -> None:
    """Adds the options of the process to the group `it`."""
    it.add_argument("--check", action="store_true", help="print whether all that the channels need is there, and end")
    it.add_argument("--timeout", type=words.seconds, default=5.0, metavar="SECONDS", help="for a request with its answer (5)")
    it.add_argument("--longest-pause", type=words.seconds, default=5.0, metavar="SECONDS", help="the longest back-off (5, and no more than a target duration)")


GROUPS = (("the channel", of_the_channel), ("the packager's playlist", of_the_playlist), ("signals and decisions", of_decisions), ("a ladder of renditions", of_a_ladder),
          ("several machines", of_machines), ("the process", of_the_process))


def read_words(arguments: list[str]) -> argparse.Namespace:
    """What the `arguments` say; ends the program if they are invalid."""
    it = words.parser("adsplice-feed", HELP)
    it.epilog = EPILOG
    for title, add in GROUPS:
        add(it.add_argument_group(title))
    said = it.parse_args(arguments)
    if said.config is None and not (said.channel and said.origin and said.at):
        it.error("--channel, --origin and --at are needed, or --config")
    if said.config is not None and (said.channel or said.origin):
        it.error("--config stands in place of --channel and --origin")
    return said


def channels_of(said: argparse.Namespace, faults: list[tuple[str, str]]) -> list[Settings]:
    """The channels that the words `said` tell of; raises Fault, unless it is of a section: then it is added to `faults`."""
    if said.config is not None:
        return config_file.read_file(said.config, faults)
    channels = told.ladder_of(said.channel, {it: getattr(said, it) for it in told.NAMES})
    Claims(None).add(channels)
    return channels


def units_of(channels: list[Settings]) -> list[list[Settings]]:
    """The `channels` that are fed together: the renditions of each programme, and each other one by itself."""
    found: dict[tuple[bool, str], list[Settings]] = {}
    for it in channels:
        found.setdefault((bool(it.programme), it.programme or it.name), []).append(it)
    return list(found.values())


class Feeds:
    """What this process feeds by the words `said`: the sections by their names."""

    def __init__(self, said: argparse.Namespace) -> None:
        self.said, self.limits = said, Limits(said.timeout, said.longest_pause, said.keep_days)
        self.sections: dict[str, Section] = {}
        self.known: dict[str, Fed] = {}  # the channels by their names
        self.ending: list[Section] = []  # those that are about to end
        self.stores: dict[tuple[StoreAt, str], Machines] = {}

    def machines_of(self, it: Settings) -> Machines | None:
        """The machines of the store that the settings name; none if they name none."""
        if it.store is None:
            return None
        key = it.store, it.machine
        if key not in self.stores:
            self.stores[key] = Machines(it.store, it.machine, print_line, it.keep)
            self.stores[key].start()
        return self.stores[key]

    def start(self, units: list[list[Settings]], faults: list[tuple[str, str]]) -> None:
        """Begins to feed the `units`. What keeps it from one is added to `faults`, by its name; then the others are fed."""
        spread = min(1.0, 0.05 * (sum(map(len, units)) - 1))
        for unit in units:
            section = Section(unit, self.limits, print_line, self.known, self.machines_of)
            try:
                section.start(spread)
                self.sections[section.name] = section
            except Fault as fault:
                faults.append((section.name, str(fault)))

    def read_again(self) -> None:
        """Reads the file of settings anew: sections that are there no more end, others begin, and those that are as they were don't notice. One that
        is wrong goes on as it was."""
        faults: list[tuple[str, str]] = []
        try:
            wanted = {name_of(it): it for it in units_of(config_file.read_file(self.said.config, faults))}
        except Fault as fault:
            print_line(f"{words.now_text()} feed settings - Wrong: {fault}; goes on as it was")
            return
        self.drop_wrong(wanted, faults)
        found = difference({name: it.settings for name, it in self.sections.items()}, wanted, {name for name, _ in faults})
        for name in (*found.changes, *found.ends):
            self.sections[name].end()
            self.ending.append(self.sections.pop(name))
        self.settle(time.monotonic() + self.limits.timeout + 2 * LAST)
        self.start([wanted[name] for name in (*found.begins, *found.changes)], faults)
        for name, text in faults:
            print_line(f"{words.now_text()} {name} settings - Wrong: {text}; goes on {'as it was' if name in self.sections else 'without it'}")
        print_line(f"{words.now_text()} feed settings - -: {self.said.config} is read: {found.text()}")

    def drop_wrong(self, wanted: dict[str, list[Settings]], faults: list[tuple[str, str]]) -> None:
        """Takes those that can't be fed out of the sections that are `wanted`, and adds them to `faults`: one whose folder can't be made, or that has
        a channel or a folder of a section which goes on as it was since it is wrong."""
        wrong = {name for name, _ in faults}
        claims = Claims(self.said.config)
        for name in wrong & set(self.sections):
            with suppress(Fault):  # (it is fed)
                claims.add(self.sections[name].settings)
        for name, unit in list(wanted.items()):
            try:
                claims.add(unit)
                for it in unit if unit[0].master is None else []:
                    told.make_folder(it)
            except Fault as fault:
                faults.append((name, str(fault)))
                del wanted[name]

    def settle(self, until: float) -> None:
        """Waits for the sections that are about to end, or until the moment `until` has come."""
        self.ending = [it for it in self.ending if not it.has_ended(until)]

    def ended(self) -> str:
        """The name of a thread that has ended of itself; empty if none has."""
        return next((name for it in list(self.sections.values()) if (name := it.ended())), "")

    def end(self, until: float) -> None:
        """Ends all sections, by the moment `until`."""
        for one in self.stores.values():
            one.ending.set()  # (with its lease all leads end at once)
        for it in self.sections.values():
            it.end()
        self.ending += self.sections.values()
        self.settle(until)
        for one in self.stores.values():
            one.end()


def name_of(unit: list[Settings]) -> str:
    """The name of the section of a `unit`."""
    return unit[0].programme or unit[0].name


def tell_wrong(name: str, text: str) -> None:
    """Prints that the section of the channel or programme `name` is wrong, and why (`text`)."""
    print_line(f"{words.now_text()} {name} settings - Wrong: {text}; goes on without it")


def tell_status(channels: list[Settings]) -> int:
    """Prints how the machines of the stores are that the `channels` name; answers the exit status. Raises Fault if they name none."""
    stores: dict[StoreAt, list[str]] = {}
    for it in channels:
        if it.store is not None and (name := it.programme or it.name) not in stores.setdefault(it.store, []):
            stores[it.store].append(name)
    if not stores:
        raise Fault("no section names a store of several machines")
    is_well = True
    for at, names in stores.items():
        lines, is_right = status.status(status.read(at), names)
        is_well = is_well and is_right
        words.write_out("".join(f"{words.plain(line)}\n" for line in lines))
    return 0 if is_well else words.FAULT


def main(arguments: list[str]) -> int:
    """Runs the feed until a signal ends it; answers the exit status."""
    said = read_words(arguments)
    faults: list[tuple[str, str]] = []
    try:
        channels = channels_of(said, faults)
        if said.status:
            words.ends_cleanly()
            return tell_status(channels)
        if said.check:
            words.ends_cleanly()
            return check.run(channels, faults, said.timeout)
        anew = threading.Event()
        ending = words.ends_by_signals(anew if said.config is not None else None)
        feeds = Feeds(said)
        door = open_door(said.door, feeds.known) if said.door else None
        feeds.start(units_of(channels), faults)
        if not feeds.sections:
            raise Fault(faults[0][1])
        for name, text in faults:
            tell_wrong(name, text)
    except (Fault, OSError) as fault:
        words.fail("adsplice-feed", str(fault))
    while not ending.wait(BETWEEN):
        if anew.is_set():
            anew.clear()
            feeds.read_again()
        feeds.settle(0)
        if (name := feeds.ended()) and not ending.is_set():
            words.fail("adsplice-feed", f"the thread of {name} has ended; what starts the feed may start it again")
    if door:
        door.close()
    feeds.end(time.monotonic() + LAST)
    return 0
