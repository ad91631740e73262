"""adsplice-condition: makes ads for a channel's ladder out of their files."""
from __future__ import annotations

import argparse
import json
import re
import signal
import sys
from pathlib import Path
from types import FrameType

from . import ladders, making, probing, words
from .children import Children
from .ladders import Ladder
from .making import Choices
from .playlist import SECOND, seconds_text
from .words import Fault

HELP = """Makes ads for a channel's ladder out of their files (a mezzanine, as MP4) by ffmpeg.

  adsplice-condition --profile http://origin.example/sport/master.m3u8 --names 1080,720,sound > sport.json
  adsplice-condition --profile 1080=http://origin.example/1080.m3u8 720=http://origin.example/720.m3u8 > sport.json
  adsplice-condition CAR0001H.mp4 --ladder sport.json --to /var/www/ads/CAR0001H
  adsplice-pod break-17 CAR0001H/1080/index.m3u8 --at http://ads.example ..      makes a decision file of one rendition's playlist

--profile looks at a segment of each rendition by ffprobe, and prints the ladder as JSON: what codecs, sizes and rates it has, and how
long a segment is. A place is a URL or a file; one master playlist stands for all of its renditions.

An ad becomes a folder with a folder for each rendition, in which its pieces and its playlist (index.m3u8) are. All renditions have the same
pieces. It is silent in the sound of a ladder if it has none, and has an empty piece of WebVTT for each piece in subtitles. Sound that is apart
from pictures is made several times, some frames shorter and longer, in folders such as DIR/less-1. The folder is there as a whole or not at all. It begins and ends as its file does, or lasts as long as --seconds says if the file is within 0.5 s of that.

Exit status: 0 done; 1 a fault, as one line on standard error; 2 wrong words."""
PLACE = re.compile(r"(?:([A-Za-z0-9_.-]{1,32})=)?(.+)")


def loudness(text: str) -> float:
    """The loudness `text` in LUFS, from -70 to -5."""
    try:
        value = float(text)
    except ValueError:
        value = 0
    if not -70 <= value <= -5:
        raise argparse.ArgumentTypeError(f"{text!r} isn't a number of LUFS from -70 to -5")
    return value


def read_words(arguments: list[str]) -> argparse.Namespace:
    """What the words `arguments` say."""
    it = words.parser("adsplice-condition", HELP)
    it.add_argument("file", nargs="?", type=Path, metavar="FILE", help="of an ad")
    it.add_argument("--profile", nargs="+", default=[], metavar="PLACE", help="prints what the ladder is like: a master playlist, or NAME=LIST for each rendition")
    it.add_argument("--names", type=lambda text: text.replace(",", " ").split(), default=[], metavar="NAME,..", help="of the renditions of a master playlist (1, 2 ..)")
    it.add_argument("--redirects", action="store_true", help="a playlist may name segments of other hosts")
    it.add_argument("--ladder", type=Path, metavar="FILE", help="what --profile printed")
    it.add_argument("--to", type=Path, metavar="DIR", help="the folder that the ad becomes")
    it.add_argument("--id", default="", metavar="ID", help="of the ad (the name of its file)")
    it.add_argument("--seconds", type=words.seconds, metavar="SECONDS", help="how long the ad is said to last")
    it.add_argument("--loudness", type=loudness, metavar="LUFS", help="makes the sound so loud (EBU R 128: -23)")
    it.add_argument("--threads", type=int, default=1, choices=range(1, 65), metavar="COUNT", help="of each coder (1)")
    it.add_argument("--limit", type=words.seconds, default=600.0, metavar="SECONDS", help="for the whole work (600)")
    said = it.parse_args(arguments)
    if bool(said.profile) == bool(said.file):
        it.error("a file is needed, with --ladder and --to; or --profile")
    if said.file and not (said.ladder and said.to):
        it.error("--ladder and --to are needed")
    return said


def places_of(prober: probing.Prober, profile: list[str], names: list[str]) -> dict[str, str]:
    """Where each rendition has its list, by the words `profile` and `names`. `prober` reads a master playlist. Raises Fault."""
    found: dict[str, str] = {}
    for text in profile:
        said = PLACE.fullmatch(text)
        name, place = (said[1], said[2]) if said and said[1] and "://" not in said[1] else (None, text)
        if name is None and len(profile) > 1:
            raise Fault(f"{text}: NAME=LIST is needed for each of several renditions")
        if name is None:
            body = prober.body(place)
            return probing.renditions_of(body, place, names) if probing.is_master(body) else {ladders.ALONE: place}
        if name in found:
            raise Fault(f"two renditions have the name {name}")
        found[name] = place
    return found


def profile(children: Children, said: argparse.Namespace) -> int:
    """Prints the ladder that the words `said` name, at which `children` look; answers the exit status."""
    from .web import Client  # (the one use of it: a file needs no library)
    prober = probing.Prober(children, Client(10, said.redirects), said.redirects)
    words.write_out(json.dumps(ladders.file_of(prober.ladder(places_of(prober, said.profile, said.names), {})), indent=1) + "\n")
    return 0


def ladder_in(path: Path) -> Ladder:
    """The ladder in the file `path`; raises Fault."""
    try:
        return ladders.ladder_of(json.loads(path.read_bytes()))
    except OSError as fault:
        raise Fault(f"{path}: {fault.strerror}") from None
    except (ValueError, RecursionError):
        raise Fault(f"{path}: it isn't JSON") from None
    except Fault as fault:
        raise Fault(f"{path}: {fault}") from None


def condition(children: Children, said: argparse.Namespace) -> int:
    """Has `children` make the ad that the words `said` name, and prints its ID, its length and its pieces; answers the exit status."""
    if not said.file.is_file():
        raise Fault(f"{said.file}: there is no such file")
    stated = None if said.seconds is None else int(said.seconds * SECOND)
    try:
        made = making.make(children, said.file, ladder_in(said.ladder), said.to, said.id or said.file.stem, Choices(said.loudness, said.limit, said.threads), stated)
    except Fault as fault:
        raise Fault(f"{said.file}: {fault}") from None
    words.write_out(words.plain(f"{made.id}: {seconds_text(sum(made.pieces))} s in {len(made.pieces)} pieces, in {said.to}") + "\n")
    return 0


def main(arguments: list[str]) -> int:
    """Profiles a ladder, or makes an ad, as the words `arguments` ask for; answers the exit status."""
    said, children = read_words(arguments), Children()

    def end(number: int, _frame: FrameType | None) -> None:
        sys.exit(128 + number)

    for it in (signal.SIGTERM, signal.SIGINT, signal.SIGHUP):
        signal.signal(it, end)
    try:
        return profile(children, said) if said.profile else condition(children, said)
    except (Fault, OSError) as fault:
        words.fail("adsplice-condition", str(fault))
    finally:
        children.end()
