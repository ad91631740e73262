"""A master playlist as the origin (RFC 8216, 4.3.4): its renditions become channels of one programme, and viewers get a master
playlist of these channels.

Variants and groups of sound, pictures and subtitles are channels. Every attribute is kept; the URIs are those where viewers read. I-frame
lists are left out, since their byte ranges would be of segments that pods replace. Closed captions are within the pictures.
"""
from __future__ import annotations

import os
import threading
import time
from collections.abc import Callable
from dataclasses import dataclass, field, replace
from pathlib import Path

from . import bounded_files, packaged, renditions, settings, spelling, urls
from .bounded_files import Unread
from .location import LocalFile, Location, Url
from .origin import Origin, origin_of, read_whole
from .pauses import Pauses
from .renditions import FileNames, Kept, Names
from .settings import SUBTITLES, Settings
from .siblings import absolute
from .traits import Traits, traits_of
from .web import MAX_BYTES, Client, strays
from .whole_files import VIEWERS_MODE, write_aside
from .words import Fault, now_text

VARIANT, MEDIA, I_FRAMES = "#EXT-X-STREAM-INF:", "#EXT-X-MEDIA:", "#EXT-X-I-FRAME-STREAM-INF:"
MEDIA_TYPES = ("AUDIO", "VIDEO", SUBTITLES)  # whose playlists are channels
CAPTIONS = "CLOSED-CAPTIONS"
WITH_URI = (MEDIA, "#EXT-X-SESSION-DATA:", "#EXT-X-SESSION-KEY:")
MOST_RENDITIONS = settings.MOST_CHANNELS
MOST_OTHERS = 1000  # lines of a master playlist with references that are no rendition's
MOST_TOLD = 1000  # letters of a line: what is told has parts of the list
AGAIN = 30.0  # seconds from one look at a master playlist to the next
SOON = 3.0  # the same once it has other renditions than before
STAYS = 5.0  # seconds for which it has these until they are fed
SELDOM = 60.0  # seconds from one change of what is fed to the next


@dataclass
class Master:
    """A master playlist: its `lines`, each with the URI in it that is a rendition's, if there is one; the renditions' URIs, each once
    (`uris`) and at most MOST_RENDITIONS; the groups' type of those that are of a group (`groups`); the names of tags that are left out; and
    whether it `has_captions`, or subtitles that are none of its renditions (`has_others`)."""

    lines: list[tuple[str, str]] = field(default_factory=list)
    uris: list[str] = field(default_factory=list)
    groups: dict[str, str] = field(default_factory=dict)
    left_out: set[str] = field(default_factory=set)
    has_captions: bool = False
    has_others: bool = False
    others: int = 0  # lines with references that are no rendition's, each of which is written with its base

    def add(self, line: str, uri: str = "", group: str = "") -> None:
        """Adds a `line`, with the `uri` of a rendition and the type of its `group`. Raises Fault if that is one too many."""
        self.lines.append((line, uri))
        if uri and uri not in self.uris:  # (of which there are few)
            if len(self.uris) == MOST_RENDITIONS:
                raise Fault(f"it names more than {MOST_RENDITIONS} renditions, and a process has {MOST_RENDITIONS} channels")
            self.uris.append(uri)
            if group:
                self.groups[uri] = group


def read(body: bytes, base: str, types: tuple[str, ...] = MEDIA_TYPES) -> Master:
    """The master playlist `body` of the URL `base`, of whose groups those of the `types` are renditions; raises Fault if it isn't one, or has too
    many renditions."""
    found, is_variant = Master(), False
    try:
        lines = spelling.lines_of(body, set())
    except spelling.Unread as fault:
        raise Fault(str(fault)) from None
    if lines[:1] != ["#EXTM3U"]:
        raise Fault("it isn't a playlist: its first line isn't #EXTM3U")
    for line in lines:
        if line.startswith(I_FRAMES):
            found.left_out.add("EXT-X-I-FRAME-STREAM-INF")
        elif line[0] != "#":
            found.add(line, line if is_variant else "")
        elif line.startswith(WITH_URI):
            said = packaged.attributes_of(line.partition(":")[2])
            is_media = line.startswith(MEDIA)
            is_rendition = is_media and said.get("TYPE") in types and "URI" in said
            found.has_captions = found.has_captions or (is_media and said.get("TYPE") == CAPTIONS)
            found.has_others = found.has_others or (is_media and said.get("TYPE") == SUBTITLES and not is_rendition)
            if urls.joined(base, said.get("URI", "")) is None:
                raise Fault(f"it names what isn't a URL: {said['URI'][:100]!r}")
            found.add(line if is_rendition else absolute(line, base), said["URI"] if is_rendition else "", said.get("TYPE", ""))
            found.others += not is_rendition
            if found.others > MOST_OTHERS:
                raise Fault(f"it has more than {MOST_OTHERS} lines of subtitles, session data and session keys")
        else:
            found.add(line)
        is_variant = line.startswith(VARIANT) or (is_variant and line[0] == "#")
    if not found.uris:
        raise Fault("it names no rendition: the origin is to be a master playlist")
    return found


def write(found: Master, where: dict[str, str]) -> bytes:
    """The master playlist `found` for viewers, who read each rendition `where` its URI says."""
    lines = []
    for line, uri in found.lines:
        if uri and line[0] == "#":
            line = line.replace(f'URI="{uri}"', f'URI="{where[uri]}"', 1)
        lines.append(where[uri] if uri and line[0] != "#" else line)
    return "".join(f"{line}\n" for line in lines).encode()


def types_of(programme: Settings) -> tuple[str, ...]:
    """The types of groups whose playlists are channels of the `programme`: subtitles if it is known where an empty piece of them is."""
    return MEDIA_TYPES if programme.empty_subtitles else tuple(it for it in MEDIA_TYPES if it != SUBTITLES)


def known_at(programme: Settings) -> Path | None:
    """The file in which the names of the programme's renditions are kept; none if nothing is to be kept."""
    return programme.keep / f"{programme.name}.renditions" if programme.keep is not None else None


def names_of(found: Master, names: list[str], known: Names) -> Names:
    """The names of the renditions by their URIs (renditions): those that are `known`; others have, in the master playlist's order, those of `names`, or
    1, 2 .. if there are none. Raises Fault if at first they aren't as many."""
    if names and not known and len(names) != len(found.uris):
        raise Fault(f"renditions names {len(names)}, and the master playlist has {len(found.uris)}: {' '.join(it[:40] for it in found.uris)}")
    return renditions.named(known, found.uris, names or [str(it + 1) for it in range(MOST_RENDITIONS)])


def listed(uri: str, programme: Settings) -> Location:
    """Where the rendition of the `uri` is read that the master playlist of the `programme` names: one URL with the scheme, host and port of that
    list's, unless its settings have others followed, as far as they are in its reach; or a file of the master playlist's folder if that is a
    file. Raises Fault if it is another place."""
    if " " in uri or not uri.isprintable():
        raise Fault(f"a rendition's URI isn't one URL, for it has a space or a sign that isn't printed: {uri[:100]!r}")
    first, parts = programme.origin, urls.parts_of(uri)
    base = first.text if isinstance(first, Url) else programme.base
    place = urls.joined(base, uri)
    if parts is None or place is None:
        raise Fault(f"a rendition isn't read, {uri[:100]!r}: it isn't a URL")
    if isinstance(first, Url) or uri.startswith("//") or parts.scheme:
        if why := strays(place, base, programme.redirects, programme.reach()):
            raise Fault(f"a rendition isn't read, {uri[:100]!r}: {why}")
        return Url(place)
    path = os.path.normpath(uri.partition("?")[0])
    if os.path.isabs(path) or path.split(os.sep)[0] in (os.pardir, os.curdir):
        raise Fault(f"a rendition isn't read, {uri[:100]!r}: it isn't in the master playlist's folder")
    return LocalFile(first.path.parent / path, first.path.parent)


def channels_of(found: Master, programme: Settings, known: Names | None = None) -> list[Settings]:
    """A channel for each rendition of the master playlist `found`, by the settings of its `programme` and the names that are `known`, or kept;
    raises Fault."""
    channels, traits = [], traits_of(found.lines)
    names = names_of(found, programme.names, renditions.load(known_at(programme)) if known is None else known)
    for key, uri in zip(renditions.keys_of(found.uris), found.uris):
        name = names[key]
        texts = {key: value.replace(settings.PLACE, name) if value else value for key, value in programme.texts.items()}
        place = listed(uri, programme)
        one = settings.settings_of(f"{programme.name}-{name}", texts, (place, urls.joined_or_same(programme.base, uri)))
        group = found.groups.get(uri, "")
        empty = programme.empty_subtitles if group == SUBTITLES else ""
        channels.append(replace(one, programme=programme.name, group=group, empty_subtitles=empty, traits=traits.get(uri, Traits())))
    return channels


def written_names(programme: Settings) -> list[str]:
    """The names of the programme's channels: by the master playlist that was written; if there is none those of `renditions`."""
    names = programme.names or [str(it) for it in range(1, MOST_RENDITIONS + 1)]
    try:
        text = bounded_files.read(programme.master, most=MAX_BYTES)[1].decode("utf-8") if programme.master else ""
    except (OSError, Unread, UnicodeDecodeError):
        text = ""
    found = [it for it in names if f"/channels/{programme.name}-{it}/live.m3u8" in text]
    return [f"{programme.name}-{it}" for it in found or programme.names]


@dataclass(frozen=True)
class Feeds:
    """What feeds the channels of a programme: `begin` begins to, `change` feeds others from then on, and `move` has the list of a channel
    read at another place. Each raises Fault."""

    begin: Callable[[list[Settings]], None]
    change: Callable[[list[Settings]], None]
    move: Callable[[str, Location], None]


class Programme:
    """The programme that `programme` tells of, whose origin is a master playlist. `client` asks for it, `say` prints a line, and `feeds` feeds its
    channels. `kept`: where their names are kept."""

    def __init__(self, programme: Settings, client: Client, say: Callable[[str], None], feeds: Feeds, kept: Kept | None = None) -> None:
        self.settings, self.say, self.feeds = programme, say, feeds
        self.origin: Origin = origin_of(programme.origin, client)
        self.kept: Kept = kept or FileNames(known_at(programme))
        self.names: Names = {}
        self.fed: dict[str, Settings] = {}  # the channels by their names
        self.others: frozenset[str] = frozenset()  # the names of those that it has in place of them, since `others_at`
        self.others_at = self.changed_at = float("-inf")
        self.pause = AGAIN
        self.state = ""

    def tell(self, word: str, text: str) -> None:
        """Prints what is so of the master playlist, unless it was so before."""
        text = text[:MOST_TOLD]
        if self.state != word + text:
            self.state = word + text
            self.say(f"{now_text()} {self.settings.name} master - {word}: {text}")

    def look(self) -> bool:
        """Looks at the master playlist, and writes the one for viewers if it changed; whether it is well."""
        if self.others:
            self.origin.forget()  # (it is judged again, though it hasn't changed)
        found = read_whole(self.origin, self.settings.unended)
        if found.why:
            self.tell("Unread", f"{found.why}; reads it again with growing pauses")
            return False
        try:
            if found.body is not None:
                self.take(read(found.body, self.settings.base, types_of(self.settings)), time.monotonic())
        except (Fault, OSError, ValueError) as fault:  # (a URI may have no host that reads)
            self.origin.forget()
            self.tell("Refused", f"{fault}; reads it again with growing pauses")
            return False
        return True

    def take(self, found: Master, now: float) -> None:
        """Feeds the renditions of `found`, and writes the master playlist for viewers. Others than before are fed once they stay so from one look to
        the next, `now`."""
        def add(known: Names) -> Names:
            return names_of(found, self.settings.names, known)
        if not self.fed:
            self.names = self.kept.agree(add)
        names = add(self.names)
        channels = {it.name: it for it in channels_of(found, self.settings, names)}
        if not self.fed:
            self.feeds.begin(list(channels.values()))
            self.fed = channels
        elif channels.keys() != self.fed.keys() and not self.may_change(frozenset(channels), now):
            return
        elif channels.keys() != self.fed.keys():
            self.feeds.change(list(channels.values()))
            self.fed, self.changed_at = channels, now
        self.others, self.pause = frozenset(), AGAIN
        if names != self.names:
            self.names = self.kept.agree(add)
        for name, it in channels.items():
            if it.origin != self.fed[name].origin:
                self.feeds.move(name, it.origin)
        self.fed = channels
        self.write(found, names)

    def may_change(self, others: frozenset[str], now: float) -> bool:
        """Whether the `others` are to be fed that the master playlist names now. Tells what is new, and what is gone."""
        if others != self.others:
            self.others, self.others_at = others, now
        self.pause = SOON
        text = renditions.told(sorted(others - self.fed.keys()), sorted(self.fed.keys() - others))
        if now - self.others_at >= STAYS and now - self.changed_at >= SELDOM:
            self.tell("Changes", f"{text}; the others go on")
            return True
        self.tell("Changed", f"{text}; feeds them so once that stays for {STAYS:g} s, and {SELDOM:g} s after the last change")
        return False

    def write(self, found: Master, names: Names) -> None:
        """Writes the master playlist `found` for viewers, whose renditions have these `names`."""
        where = {uri: f"{self.settings.viewers}/channels/{self.settings.name}-{names[key]}/live.m3u8" for key, uri in zip(renditions.keys_of(found.uris), found.uris)}
        assert self.settings.master is not None
        write_aside(self.settings.master, write(found, where), VIEWERS_MODE)
        notes = [f"{it} is left out" for it in sorted(found.left_out)]
        notes += ["closed captions are within the pictures, and ads need their own"] if found.has_captions else []
        notes += ["subtitles stay at the origin: name `viewers` or `empty_subtitles`"] if found.has_others else []
        names_fed = [*self.fed]
        self.tell("-", "; ".join([f"{len(names_fed)} renditions are channels, {names_fed[0]} to {names_fed[-1]}; viewers load {self.settings.master}", *notes]))

    def run(self, ending: threading.Event, longest_pause: float) -> None:
        """Looks at the master playlist until `ending` is set."""
        pauses = Pauses(0.5, longest_pause)
        while not ending.is_set():
            try:
                is_well = self.look()
            except Exception as fault:  # noqa: BLE001  (the feed would end with this thread, and its other channels)
                self.origin.forget()
                self.tell("Refused", f"{type(fault).__name__}: {str(fault)[:200]}; reads it again with growing pauses")
                is_well = False
            if is_well:
                pauses.reset()
            ending.wait(self.pause if is_well else pauses.next())
