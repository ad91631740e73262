"""adsplice-pod: makes a decision file of ads' own playlists, and judges decision files; puts breaks into a programme on demand."""
import argparse
import json
import sys
from pathlib import Path
from typing import Any

from . import judge, playlist, shapes, words
from .ads import Advertisement, local_base, read_ad
from .program import find_program
from .whole_files import write_aside
from .words import Fault

HELP = """Makes a decision file for a break of the playlists of its ads, or judges a decision file; or puts breaks into a programme on demand.

  adsplice-pod ID ad1/index.m3u8 ad2/index.m3u8 --at http://ads.example > decisions.json
  adsplice-pod --fallback ad1/index.m3u8 --at http://ads.example > fallback.json
  adsplice-pod --check decisions.json [--verify]
  adsplice-pod --check news-1080.json news-720.json news-sound.json      those of a ladder's renditions
  adsplice-pod --vmap breaks.xml --playlist index.m3u8 --base http://origin.example/film/index.m3u8 --ads /var/www/ads --at http://ads.example --to film
  adsplice-pod --breaks 0=CAR0001H 600=CAR0001H,SOAP0001H end=CAR0001H --playlist index.m3u8 --base .. --ads .. --at .. --to film
  adsplice vod http://origin.example/film/index.m3u8 film/decisions.json < film/index.m3u8 > written.m3u8

adsplice itself reads the playlists: byte ranges, keys and initialisation sections as RFC 8216 has them. A file's URL is
the one of --at with the file's path behind it; an ad may also be named by its URL, and is then fetched. Warnings go to
standard error, a line each: a segment over the target duration, a pod that isn't as long as its break, ads of which some
have an initialisation section and some haven't, an ad with several keys.

--check prints `right`, or the member that is wrong, in words, by the rules in adsplice_rules. It also names a member that adsplice doesn't know, and so ignores.
Several files are those of a ladder's renditions: it prints what of one doesn't fit the first one.
With --verify it requests each URI that the file names, by HEAD or by its first byte, and prints a line for one that doesn't exist.

--vmap (IAB VMAP 1.0) and --breaks put breaks into the playlist of a programme on demand: before it, within it where a segment begins, and after
it. No segment goes. The ads are those that adsplice-condition made in folders of --ads, by their IDs. DIR gets the playlist with signals, and the
decision file, for `adsplice vod`. It leaves out an ad or a break that can't be put in, and prints a line for it.

Exit status: 0 done (or right); 1 a fault, or a wrong file; 2 invalid arguments; with --strict also 1 after a warning."""
MOST_VERIFIED, VERIFIED = 5000, 30.0  # URIs that are asked for, and seconds for all of them
NEAR = playlist.SECOND // 10  # how far a pod's length may be from its break's


def read_words(arguments: list[str]) -> argparse.Namespace:
    """What the `arguments` say; ends the program if they are invalid."""
    it = words.parser("adsplice-pod", HELP)
    it.add_argument("names", nargs="*", metavar="ID PLAYLIST", help="the break's ID, and the playlists of its ads in their order")
    it.add_argument("--at", type=words.web_address, metavar="URL", help="where the folder of the playlists, or of --ads, is published")
    it.add_argument("--strict", action="store_true", help="a warning is a fault")
    it.add_argument("--program", metavar="PATH", help="the built adsplice, if it isn't beside this program, on the path or in /opt/adsplice")
    made = it.add_argument_group("a decision file")
    made.add_argument("--fallback", action="store_true", help="make a fallback: no ID")
    made.add_argument("--target", type=int, metavar="SECONDS", help="the channel's EXT-X-TARGETDURATION, for warnings")
    made.add_argument("--length", type=words.seconds, metavar="SECONDS", help="the break's length, for warnings")
    checked = it.add_argument_group("check a decision file")
    checked.add_argument("--check", nargs="+", metavar="FILE", help="the decision file (- is standard input), or those of a ladder's renditions")
    checked.add_argument("--verify", action="store_true", help="also check that its ads exist")
    film = it.add_argument_group("a programme on demand")
    film.add_argument("--vmap", metavar="FILE", help="a VMAP document, or its URL")
    film.add_argument("--breaks", nargs="+", metavar="OFFSET=ID,..", help="breaks by their offsets: seconds, HH:MM:SS, start or end")
    film.add_argument("--playlist", dest="list", metavar="FILE", help="the programme's playlist, or its URL")
    film.add_argument("--base", type=words.web_address, metavar="URL", help="where the playlist is published")
    film.add_argument("--ads", type=Path, metavar="DIR", help="the folder of ads that adsplice-condition made")
    film.add_argument("--rendition", default="main", metavar="NAME", help="the ads' rendition (main)")
    film.add_argument("--to", type=Path, metavar="DIR", help="for the playlist with signals and the decision file")
    said = it.parse_args(arguments)
    if said.vmap or said.breaks:
        if said.vmap and said.breaks or said.names or not (said.list and said.base and said.ads and said.at and said.to):
            it.error("--vmap or --breaks needs --playlist, --base, --ads, --at and --to")
        return said
    if said.check is None and len(said.names) < (1 if said.fallback else 2):
        it.error("an ID and at least one playlist are needed, or --check FILE")
    if said.verify and said.check is None:
        it.error("--verify goes with --check")
    if said.check is not None and said.names:
        it.error("--check takes decision files and no playlists")
    return said


def body_of(name: str) -> bytes:
    """The bytes of the file, or of the URL, `name`; raises Fault."""
    if name.startswith(("http://", "https://")):
        from .web import Client  # (the one use of it: files need no library)
        answer = Client(10).ask("GET", name)
        if answer.status != 200:
            raise Fault(f"{name}: {answer.why or f'status {answer.status}'}")
        return answer.body
    try:
        if name == "-":
            return sys.stdin.buffer.read()
        with open(name, "rb") as it:
            return it.read()
    except OSError as fault:
        raise Fault(f"{name}: {fault.strerror}") from None


def read_ads(program: str, names: list[str], at: str | None) -> list[Advertisement]:
    """The ads of the playlists `names`, which are published under `at`, read by `program`."""
    found = []
    for name in names:
        is_web = name.startswith(("http://", "https://"))
        if not is_web and at is None:
            raise Fault(f"{name} is a file: --at says under which URL it is published")
        found.append(read_ad(program, name, name if is_web else local_base(at or "", name), body_of(name)))
    return found


def warnings_of(ads: list[Advertisement], target: int | None, length: float | None) -> list[str]:
    """What is to be told of `ads` as a pod for a channel of the `target` duration and a break of `length` seconds."""
    found = [it for ad in ads for it in ad.warnings]
    for ad in ads:
        segments = [it for part in ad.parts for it in part.segments]
        for number, it in enumerate(segments if target is not None else []):
            whole = ((playlist.read_duration(it["duration"]) or 0) + playlist.SECOND // 2) // playlist.SECOND
            if target is not None and whole > target:
                found.append(f"{ad.name}: segment {number} lasts {it['duration']} s, which is {whole} s rounded, over the target of {target} s: "
                             "its break stays empty (DoesNotFit)")
    with_init_section = {ad.name for ad in ads if any(part.init_section is not None for part in ad.parts)}
    if with_init_section and len(with_init_section) < len({ad.name for ad in ads}):
        bare = next(ad.name for ad in ads if ad.name not in with_init_section)
        found.append(f"{min(with_init_section)} has an initialisation section (EXT-X-MAP) and {bare} has none: such a pod fits no channel (DoesNotFit)")
    if length is not None:
        by = sum(it.duration() for it in ads) - round(length * playlist.SECOND)
        if abs(by) > NEAR:
            what = "longer than its break: players fall behind" if by > 0 else "shorter than its break: pictures stand still"
            found.append(f"the pod lasts {playlist.seconds_text(sum(it.duration() for it in ads))} s and is {playlist.seconds_text(abs(by))} s {what}")
    return found


def written(ads: list[Advertisement], break_id: str | None) -> bytes:
    """The decision file of a pod of `ads` for the break `break_id`, or as the fallback if there is none."""
    members = [part.member() for ad in ads for part in ad.parts]
    found: dict[str, Any] = {"fallback": {"ads": members}} if break_id is None else {"breaks": [{"id": break_id, "ads": members}]}
    return (json.dumps(found, indent=2, ensure_ascii=False) + "\n").encode()


def verdict(body: bytes) -> str:
    """What is wrong with the decision file `body` by the rules: the member in words, and the fault; empty if it is right."""
    wrong = judge.judge(body)
    return "" if wrong is None else f"{wrong.line()} ({wrong.fault})"


def check(names: list[str], is_verified: bool) -> int:
    """Judges the decision files `names`, which are those of a ladder's renditions if there are several, and asks whether their ads are there if that is to
    be verified (`is_verified`); answers the exit status."""
    bodies = {name: body_of(name) for name in names}
    wrong = {name: said for name, body in bodies.items() if (said := verdict(body))}
    unlike = [] if wrong else shapes.differences(bodies)
    is_right = not wrong and not unlike
    lines = list(unlike) if wrong or unlike else shapes.lengths_apart(bodies)
    for name, body in bodies.items():
        absent = absent_of(body) if is_verified and name not in wrong else []
        is_right &= not absent
        own = [wrong[name]] if name in wrong else [*judge.strange_members(body), *(absent or ([] if unlike else ["right"]))]
        lines += [f"{name}: {it}" for it in own]
    words.write_out("".join(f"{words.plain(it)}\n" for it in lines))
    return 0 if is_right else words.FAULT


def absent_of(body: bytes) -> list[str]:
    """A line for each URI of the decision file `body` that isn't there."""
    from .looking import Looker  # (with what it needs, which others don't)
    from .presence import chosen
    from .web import Client
    named = chosen([body], MOST_VERIFIED)
    return [f"{ad}: {words.shown(uri)} isn't there: {why}" for ad, uri, why in Looker(Client(VERIFIED, True), VERIFIED).absent_of(named)]


def make(program: str, said: argparse.Namespace) -> int:
    """Writes the decision file that the words `said` ask for, read by `program`; answers the exit status."""
    break_id, names = (None, said.names) if said.fallback else (said.names[0], said.names[1:])
    ads = read_ads(program, names, said.at)
    warnings = warnings_of(ads, said.target, said.length)
    body = written(ads, break_id)
    if wrong := verdict(body):
        raise Fault(wrong)
    for it in warnings:
        print(words.plain(f"adsplice-pod: {it}"), file=sys.stderr)
    if warnings and said.strict:
        return words.FAULT
    words.write_out(body.decode())
    return 0


def put_in(said: argparse.Namespace) -> int:
    """Puts breaks into a programme on demand, as the words `said` ask for; answers the exit status."""
    from . import on_demand  # (with what it needs, which others don't)
    from .bounded_xml import NoXml
    try:
        programme = on_demand.programme_of(body_of(said.list))
    except Fault as fault:
        raise Fault(f"{said.list}: {fault}") from None

    def ready_of(name: str) -> Any:
        return on_demand.ready_in(said.ads, said.at, said.rendition, name)

    try:
        places, faults = on_demand.of_words(said.breaks, ready_of) if said.breaks else on_demand.of_vmap(
            body_of(said.vmap), on_demand.length_of(programme), ready_of, said.vmap if said.vmap.startswith(("http://", "https://")) else "")
    except NoXml as fault:
        raise Fault(f"{said.vmap}: {fault}") from None
    faults += [f"break {it.name}: it has no ads, and is left out" for it in places if not it.ads]
    cuts, more = on_demand.cuts_of(programme, [it for it in places if it.ads])
    cuts = on_demand.balanced(cuts)
    for text in faults + more:
        print(words.plain(f"adsplice-pod: {text}"), file=sys.stderr)
    if faults and said.strict:
        return words.FAULT
    if not cuts:
        raise Fault("there is no break with ads")
    listed, decisions = on_demand.with_breaks(programme, cuts)
    if wrong := verdict(decisions) or on_demand.check(said.base, listed, decisions, [it.name for it in cuts.values()]):
        raise Fault(wrong)
    said.to.mkdir(parents=True, exist_ok=True)
    write_aside(said.to / "index.m3u8", listed)
    write_aside(said.to / "decisions.json", decisions)
    words.write_out("".join(f"{words.plain(it.name)}: {playlist.seconds_text(it.length())} s of {', '.join(words.plain(ad.id) for ad in it.ads)}\n" for it in cuts.values()))
    return 0


def main(arguments: list[str]) -> int:
    """Makes or judges a decision file; answers the exit status."""
    said = read_words(arguments)
    words.ends_cleanly()
    try:
        if said.vmap or said.breaks:
            return put_in(said)
        return check(said.check, said.verify) if said.check is not None else make(find_program(said.program), said)
    except (Fault, OSError) as fault:
        words.fail("adsplice-pod", str(fault))
