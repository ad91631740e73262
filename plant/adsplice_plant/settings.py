"""What a feed is told of its channels: by its words, or by a file of sections."""
import argparse
import hashlib
import json
import re
from collections.abc import Mapping
from dataclasses import dataclass, field, replace
from pathlib import Path

from adsplice_rules.channel import MOST_TOLERANCE
from adsplice_rules.times import duration_of

from . import splice, words
from .location import Location, Url, path_in, stated
from .reach import Network, Reach, networks_of
from .store_settings import StoreAt, machine_of, store_of
from .traits import Traits
from .words import Fault

NAMES = ("origin", "at", "base", "tolerance", "decisions", "fallback", "slate", "keep", "unended", "renditions", "repair", "target", "endless", "times",
         "signals", "nearest", "fill", "ask", "hold", "verify", "master", "viewers", "empty_subtitles", "redirects", "networks", "line", "store",
         "machine", "lease")
PLACE = "{}"  # of a rendition's name in the texts of a ladder's section
MOST_BASE = 2048  # bytes of a base: each reference of a list is resolved by it, so it is written as often as there are segments
MOST_CHANNELS = 64  # that a process of adsplice has
LINE = 16_384  # bytes of a list's line: a key may be a data URI of some thousands
SUBTITLES = "SUBTITLES"  # the TYPE of a group (RFC 8216, 4.3.4.1)
EMPTY = "/empty.vtt"  # where a piece of subtitles without words is, beside the channels that viewers read (nginx.conf)
FOLDER = "folder"  # in place of a URL: who decides watches the folder of decisions
ALL, OTHERS = "all", "others"  # a break is filled in all renditions or in none; in those that can begin it


@dataclass(frozen=True)
class Settings:
    """One channel: its `name`, the `origin` of its list, adsplice's address `at`, the `base` of its
    references, a `tolerance` in seconds, the folder of `decisions`, the `fallback` file, the file of a `slate`, the folder `keep` of what is kept for
    the monitor and the explainer, whether its packager leaves the last line `unended`, and the `programme` whose rendition it
    is, if it is one of a ladder. Of its lists: whether the feed puts them right (`repair`), the `target` duration in seconds
    (that of the first list, if none), whether the channel is `endless`, and whether `times` are added if none are stated. Of its
    signals: whether they are translated (`signals`), the segmentation `types` that begin a break if some are named, and whether a
    start is put on the `nearest` segment; in which renditions of a ladder a break begins that one can't begin (`fill`: ALL for none, OTHERS); where to `ask` for a break's decision (a URL, FOLDER, or nowhere), and how many seconds a
    list may wait for it (`hold`); whether it is looked that a decision's ads are there (`verify`). A rendition of a master playlist has the type of its `group`, if it is of one, and the `traits` that
    it has by that. A programme whose
    origin is a master playlist has the file of the one for viewers (`master`), the address at which these read channels (`viewers`;
    their own host, if none), the URL of a piece of subtitles without words (`empty_subtitles`; a rendition has it if it is one of
    subtitles), the `names` of its renditions, if a person gave them, and the `texts` of its section. Of what its
    origin may do: whether `redirects` to other hosts, ports and schemes are followed, the `networks` to which they may lead, the hosts that
    a person `named` as origins, and how many bytes a `line` has at most. `idle` has a sentence for each
    setting that has no effect beside the others. The `second` origin is read while the first one fails or stands still; there may be
    none. Its references are relative to the base if that is named, and else (`second_base`) to its own URL. Several machines have what was given in the
    `store`, of which this one is the `machine`; without one this machine alone has it, in `keep`."""

    name: str
    origin: Location
    at: str
    base: str
    tolerance: str = ""
    decisions: Path | None = None
    fallback: Path | None = None
    slate: Path | None = None
    keep: Path | None = None
    unended: bool = False
    programme: str = ""
    repair: bool = True
    target: int | None = None
    endless: bool = True
    times: bool = True
    signals: bool = True
    types: frozenset[int] | None = None
    nearest: bool = True
    fill: str = ALL
    ask: str = ""
    hold: float = 1.0
    verify: bool = False
    redirects: bool = False
    networks: tuple[Network, ...] | None = None
    named: frozenset[str] = frozenset()
    line: int = LINE
    idle: tuple[str, ...] = ()
    group: str = ""
    master: Path | None = None
    viewers: str = ""
    empty_subtitles: str = ""
    names: list[str] = field(default_factory=list)
    texts: Mapping[str, str | None] = field(default_factory=dict)
    second: Location | None = None
    second_base: str = ""
    traits: Traits = Traits()
    store: StoreAt | None = None
    machine: str = ""

    def rendition(self) -> str:
        """The rendition's name; none for a channel by itself."""
        return self.name[len(self.programme) + 1:] if self.programme else ""

    def is_web(self) -> bool:
        """Whether the origin is a URL."""
        return isinstance(self.origin, Url)

    def reach(self) -> Reach:
        """What a request for its lists may connect to."""
        return Reach(self.named, self.networks)

    def body(self) -> bytes:
        """The body of the request that makes the channel."""
        said = {"base": self.base} | ({"tolerance": self.tolerance} if self.tolerance else {})
        return json.dumps(said).encode()


def ladder_of(name: str, said: Mapping[str, str | None]) -> list[Settings]:
    """The settings of the channel `name` from texts by the names of NAMES; those of a channel for each of the programme's
    renditions if `renditions` names some, in whose texts PLACE stands for the rendition's name. Raises Fault."""
    renditions = (said.get("renditions") or "").split()
    if said.get("master"):
        return [programme_of(name, said, renditions)]
    if not renditions:
        return [settings_of(name, said)]
    for it in ("origin", "decisions"):
        if not all(PLACE in one for one in parts_of(said.get(it) or "")):
            raise Fault(f"channel {name}: {it} needs {PLACE} where a rendition's name is to stand, for each has its own")
    check_renditions(name, renditions)
    found = []
    for rendition in renditions:
        texts = {key: value.replace(PLACE, rendition) if value else value for key, value in said.items()}
        found.append(replace(settings_of(f"{name}-{rendition}", texts), programme=name))
    return found


def check_renditions(name: str, renditions: list[str]) -> None:
    """Raises Fault if the names `renditions` of the programme `name` aren't of their own, or have a hyphen."""
    if len(set(renditions)) < len(renditions) or any("-" in it for it in renditions):
        raise Fault(f"channel {name}: each rendition has a name of its own without '-': {' '.join(renditions)}")


def programme_of(name: str, said: Mapping[str, str | None], renditions: list[str]) -> Settings:
    """The settings of the programme `name` whose origin is a master playlist, from texts by the names of NAMES; `renditions` are the
    names of its channels, if they are given. Raises Fault."""
    check_renditions(name, renditions)
    if said.get("decisions") and PLACE not in (said["decisions"] or ""):
        raise Fault(f"channel {name}: decisions needs {PLACE} where a rendition's name is to stand, for each has its own")
    if len(parts_of(said.get("origin") or "")) > 1:
        raise Fault(f"channel {name}: a master playlist has one origin; name the renditions, and give each two")
    try:
        master, viewers = path_in(said["master"] or ""), said.get("viewers") or ""
    except Fault as fault:
        raise Fault(f"channel {name}: master: {fault}") from None
    if not master.parent.is_dir():
        raise Fault(f"channel {name}: master: there is no folder {master.parent}")
    try:
        viewers = words.web_address(viewers) if viewers else ""
        empty = words.web_address(said.get("empty_subtitles") or "") if said.get("empty_subtitles") else f"{viewers}{EMPTY}" if viewers else ""
    except argparse.ArgumentTypeError as fault:
        raise Fault(f"channel {name}: viewers or empty_subtitles: {fault}") from None
    plain = {key: None if key in ("decisions", "fallback", "slate", "ask", "verify") else value for key, value in said.items()}
    return replace(settings_of(name, plain), master=master, viewers=viewers, empty_subtitles=empty, names=renditions, texts=dict(said))


def settings_of(name: str, said: Mapping[str, str | None], listed: tuple[Location, str] | None = None) -> Settings:
    """The settings of the channel `name` from texts by the names of NAMES; raises Fault if they don't go together. `listed`: where its list is
    read, and its base, if a master playlist says so: what a list says is no text of settings."""
    try:
        words.channel_name(name)
        first, second = origins_of(said.get("origin") or "")
        origin, named = listed[0] if listed else first, frozenset(it.host() for it in (first, second) if isinstance(it, Url))
        at = words.web_address(said.get("at") or "")
        base = listed[1] if listed else said.get("base") or (origin.text if isinstance(origin, Url) else "")
        if not base:
            raise Fault("its origin is a file, so it needs base, the URL under which the packager publishes it")
        words.web_address(base)
        base = words.without_user(base)
        paths = {it: path_in(text) if (text := said.get(it)) else None for it in ("decisions", "fallback", "slate", "keep")}
        if len(base.encode()) > MOST_BASE:
            raise Fault(f"base has at most {MOST_BASE} bytes, for viewers get it with each reference")
    except (argparse.ArgumentTypeError, Fault) as fault:
        raise Fault(f"channel {name}: {fault}") from None
    target, tolerance = said.get("target") or "", said.get("tolerance") or ""
    if tolerance and ((nanos := duration_of(tolerance)) is None or nanos > MOST_TOLERANCE):
        raise Fault(f"channel {name}: tolerance is a number of seconds of at most 10, and not {tolerance}")
    if target and not (target.isascii() and target.isdigit() and 1 <= len(target) <= 5 and int(target)):
        raise Fault(f"channel {name}: target is a whole number of seconds, and not {target}")
    found = Settings(name, origin, at, base, tolerance, paths["decisions"], paths["fallback"], paths["slate"], paths["keep"],
                     is_yes(name, "unended", said, "no"), "", is_yes(name, "repair", said, "yes"), int(target) if target else None,
                     is_yes(name, "endless", said, "yes"), is_yes(name, "times", said, "yes"))
    second = None if listed is not None else second
    if second and not found.repair:
        raise Fault(f"channel {name}: a second origin needs repair, so that the numbers go on")
    own = words.without_user(second.text) if isinstance(second, Url) and not said.get("base") else ""
    return with_store(with_bounds(with_signals(replace(found, named=named, second=second, second_base=own), said), said), said)


def with_store(found: Settings, said: Mapping[str, str | None]) -> Settings:
    """The settings `found` with what the texts `said` say of a store of several machines; raises Fault."""
    text = said.get("store") or ""
    if not text:
        idle = tuple(f"`{name}` has no effect without store" for name in ("machine", "lease") if said.get(name))
        return replace(found, idle=found.idle + idle)
    if not found.repair:
        raise Fault(f"channel {found.name}: a store of several machines needs repair, so that all of them have the same numbers")
    try:
        return replace(found, store=store_of(text, said.get("lease") or ""), machine=machine_of(said.get("machine") or ""))
    except Fault as fault:
        raise Fault(f"channel {found.name}: {fault}") from None


def with_bounds(found: Settings, said: Mapping[str, str | None]) -> Settings:
    """The settings `found` with what the texts `said` say of what an origin may do, and with those that have no effect; raises Fault."""
    line = said.get("line") or str(LINE)
    if not (line.isascii() and line.isdigit() and len(line) <= 7 and 256 <= int(line)):
        raise Fault(f"channel {found.name}: line is a number of bytes of at least 256, and not {line}")
    try:
        networks = networks_of(said.get("networks") or "") or None
    except ValueError as fault:
        raise Fault(f"channel {found.name}: networks are such as 10.0.0.0/8 192.168.7.3, and {fault}") from None
    idle = [f"`{name}` has no effect {why}" for is_so, why, names in (
        (not said.get("master") and not any(isinstance(it, Url) for it in (found.origin, found.second)),
         "on an origin that is a file", ("redirects",) if found.verify else ("redirects", "networks")),
        (not found.repair, "without repair", ("target", "endless", "times")),
        (not found.signals, "without signals", ("nearest", "fill")), (not said.get("renditions") and not said.get("master"), "without renditions", ("fill",)), (not found.ask and not found.verify, "without ask or verify", ("hold",)),
        (not said.get("master"), "without master", ("empty_subtitles",))) if is_so for name in names if said.get(name)]
    return replace(found, redirects=is_yes(found.name, "redirects", said, "no"), networks=networks, line=int(line), idle=tuple(idle))


def parts_of(text: str) -> list[str]:
    """The parts of a setting's `text` between its spaces. (Signs such as U+00A0 aren't spaces.)"""
    return [it for it in re.split(r"[ \t\r\n]+", text) if it]


def origins_of(text: str) -> tuple[Location, Location | None]:
    """The first and the second origin in `text`; none in place of the second if there is one alone. Raises Fault or ArgumentTypeError."""
    found = parts_of(text)
    if not 1 <= len(found) <= 2:
        raise Fault(f"origin is a URL or a file, or two of them, and not {text}" if found else "names no origin")
    return stated(found[0]), stated(found[1]) if len(found) == 2 else None


def with_signals(found: Settings, said: Mapping[str, str | None]) -> Settings:
    """The settings `found` with what the texts `said` say of signals and of asking; raises Fault."""
    signals, ask, hold, fill = ((said.get(it) or "").strip() for it in ("signals", "ask", "hold", "fill"))
    try:
        if fill not in ("", ALL, OTHERS):
            raise Fault(f"fill is {ALL} or {OTHERS}, and not {fill}")
        if ask and ask != FOLDER:
            words.web_address(ask)
        if ask and found.decisions is None:
            raise Fault("ask needs decisions, the folder in which answers become decision files")
        if ask and signals == "no":
            raise Fault("ask needs signals: only the breaks that the feed knows are asked for")
        verify = is_yes(found.name, "verify", said, "no")
        if verify and found.decisions is None and not said.get("decisions"):
            raise Fault("verify needs decisions, the folder of the files whose ads are looked at")
        types = None if signals in ("", "auto", "no") else frozenset(type_of(it) for it in signals.replace(",", " ").split())
        seconds = 1.0 if not hold else 0.0 if hold == "0" else words.seconds(hold)
    except (argparse.ArgumentTypeError, Fault) as fault:
        raise Fault(f"channel {found.name}: {fault}") from None
    return replace(found, signals=signals != "no", types=types, nearest=is_yes(found.name, "nearest", said, "yes"), fill=fill or ALL, ask=ask, hold=seconds, verify=verify)


def type_of(text: str) -> int:
    """The segmentation type `text`, such as 0x34; raises Fault if it begins no span for advertisements (ANSI/SCTE 35, 10.3.3.1)."""
    try:
        found = int(text, 0)
    except ValueError:
        found = -1
    if found not in splice.SPANS:
        raise Fault(f"signals is auto, no, or types of {', '.join(f'0x{it:02X}' for it in sorted(splice.SPANS))}, and not {text}")
    return found


def is_yes(channel: str, name: str, said: Mapping[str, str | None], usual: str) -> bool:
    """Whether the setting `name` of `channel` is yes by the texts `said`, or, if it isn't there, by what is `usual`; raises Fault."""
    found = (said.get(name) or usual).lower()
    if found not in ("yes", "no"):
        raise Fault(f"channel {channel}: {name} is yes or no, and not {found}")
    return found == "yes"


def make_folder(settings: Settings) -> None:
    """Makes the folder of decisions that `settings` name, if it isn't there; raises Fault."""
    if settings.decisions is not None:
        try:
            settings.decisions.mkdir(parents=True, exist_ok=True)
        except OSError as fault:
            raise Fault(f"channel {settings.name}: decisions: {settings.decisions}: {fault.strerror}") from None


def hash_of(channels: list[Settings]) -> str:
    """What is the same on two machines that have the same settings of the `channels`, in whatever order, but for the machine's name."""
    return hashlib.sha256("\n".join(repr(replace(it, machine="")) for it in sorted(channels, key=lambda it: it.name)).encode()).hexdigest()[:16]
