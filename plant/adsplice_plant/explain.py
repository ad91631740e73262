"""adsplice-explain: says why breaks are filled or empty, by the rules for what a channel was given."""
import argparse
import json
from datetime import datetime, timedelta, timezone
from pathlib import Path

from adsplice_rules.edge import Request
from adsplice_rules.values import NotModelled
from adsplice_rules.why import segment_reason

from . import journal, words
from .causes import Explainer, refusals
from .excerpt import Book, Excerpt
from .history import NAME, PATHS, TAKEN, Given, Run
from .program import Process, find_program
from .words import Fault

HELP = """Says why a channel's breaks are filled or empty, each with its numbers.

  adsplice-explain playlist.m3u8 decisions.json               (the decision came after the playlist)
  adsplice-explain decisions.json one.m3u8 two.m3u8           (the decision came first, then two playlists)
  adsplice-explain --kept /var/lib/adsplice/kept/news.events  (what adsplice-feed --keep has kept of a channel: its newest hour)
  adsplice-explain --kept /var/lib/adsplice/kept/film-*.events --break b17   (a programme: one line for each break)
  adsplice-explain --kept news.events --break b17 --at 2026-11-27T20:15:00Z   (as b17 was listed then, or last before)

Each break is explained by the rules in adsplice_rules, from what the channel was given. What adsplice answered is compared
with them: for files a process of it is started, given the same, and ended; a journal has its answers. A difference is printed
first. A file that begins with #EXTM3U is a playlist and one that begins with { is a decision file; others are taken by their
names (*.json, and else a playlist).

Prints a line for each refused file, for each break, and for what adsplice takes without a word and what may be a mistake.
Exit status: 0 if each break is filled and nothing was refused; 3 if one is empty or something was refused; 1 a fault;
2 invalid arguments."""
EMPTY = 3
BASE = "http://origin.example/index.m3u8"
HOUR = timedelta(hours=1)


def read_words(arguments: list[str]) -> argparse.Namespace:
    """What the words `arguments` say."""
    it = words.parser("adsplice-explain", HELP)
    it.add_argument("files", nargs="*", type=Path, metavar="FILE", help="playlists and decision files, in the order in which they were sent")
    it.add_argument("--kept", type=Path, nargs="+", metavar="FILE", help="a channel's NAME.events that adsplice-feed has kept; or those of a programme's renditions")
    it.add_argument("--at", type=time_of_day, metavar="TIME", help="with --kept: as it was at this time (UTC, 2026-11-27T20:15:00Z), and in the hour before")
    it.add_argument("--base", default=BASE, metavar="URL", help="the channel's base")
    it.add_argument("--tolerance", metavar="SECONDS", help="the channel's tolerance (0.1)")
    it.add_argument("--break", dest="only", metavar="ID", help="this break alone")
    it.add_argument("--all", action="store_true", help="also says for each segment which break it belongs to, and why")
    it.add_argument("--program", metavar="PATH", help="the built adsplice, if it isn't beside this program, on the path or in /opt/adsplice")
    said = it.parse_args(arguments)
    if bool(said.files) == (said.kept is not None):
        it.error("files are needed, or --kept")
    if said.at and said.kept is None:
        it.error("--at goes with --kept")
    return said


def time_of_day(text: str) -> str:
    """The time `text` as the events of a journal have it."""
    try:
        found = datetime.fromisoformat(text)
    except ValueError:
        raise argparse.ArgumentTypeError(f"{text!r} isn't a time such as 2026-11-27T20:15:00Z") from None
    return words.time_text(found if found.tzinfo else found.replace(tzinfo=timezone.utc))


def kind_of(name: Path, body: bytes) -> str:
    """Whether the file `name` with the bytes `body` is a list for `origin` or a file for `decisions`."""
    text = body.removeprefix(b"\xef\xbb\xbf").lstrip()
    if text.startswith(b"#EXTM3U"):
        return "origin"
    return "decisions" if text.startswith((b"{", b"[")) or name.suffix == ".json" else "origin"


def given_by_files(files: list[Path], base: str, tolerance: str | None) -> list[Given]:
    """A channel of `base` and `tolerance`, and then the files `files` in their order; raises Fault."""
    body = {"base": base} | ({"tolerance": tolerance} if tolerance else {})
    found = [Given("channel", "the channel", json.dumps(body).encode())]
    for it in files:
        try:
            data = it.read_bytes()
        except OSError as fault:
            raise Fault(f"{it}: {fault.strerror}") from None
        found.append(Given(kind_of(it, data), it.name, data))
    return found


def run_beside(program: str, given: list[Given]) -> Run:
    """The run of all that was `given` by the rules, beside a process of `program`; raises Fault if no channel can be made."""
    run = Run()
    with Process(program) as process:
        def ask(it: Given) -> tuple[int, str]:
            """What the process answers to `it`."""
            status, text = process.ask("PUT", f"/channels/{NAME}{PATHS[it.what]}", it.body)
            return status, "" if status in TAKEN else text.strip()

        for it in given:
            step = run.take(it, ask)
            if it.what == "channel" and not step.is_taken():
                raise Fault(f"{it.name}: the channel can't be made: {step.given.fault}")
            for what in ("why", "live.m3u8"):
                path = f"/channels/{NAME}/{what}"
                owed = run.edge.answer(Request("GET", path, b""))
                if process.ask("GET", path) != (owed.status, owed.body):
                    run.unlike.append(f"{it.name}: after it, {what} isn't what the rules owe: that is a fault of adsplice, which its makers want to be told")
    return run


def report(explainer: Explainer, only: str | None) -> tuple[list[str], bool]:
    """The lines to print of `explainer`, of the break `only` if one is named, and whether all is well."""
    differences = explainer.differences()
    if only is not None:
        if only not in explainer.ids():
            like = explainer.like(only, explainer.ids())
            return [*differences, f"{only}: no playlist has this ID" + (f"; listed is {like}, which is like it" if like else "")], False
        return [*differences, explainer.explain(only)], not differences and explainer.word(only) == "Filled"
    refused, unlisted = refusals(explainer.run.steps), explainer.unlisted()
    breaks = [explainer.explain(it) for it in explainer.ids()]
    none = [] if breaks or unlisted else ["no playlist that reads has a break: an EXT-X-DATERANGE with START-DATE and SCTE35-OUT"]
    is_well = not differences and not refused and not unlisted and not none and all(explainer.word(it) == "Filled" for it in explainer.ids())
    return differences + refused + breaks + unlisted + none + explainer.unseen(), is_well


def segments_of(explainer: Explainer) -> list[str]:
    """For each segment that was shown which break it belongs to, and why."""
    return [line for life in explainer.run.lives for place in range(len(life.channel.history)) for line in segment_reason(life.channel, place)]


def report_programme(said: argparse.Namespace) -> tuple[list[str], bool]:
    """The lines to print of what is kept in the files that the words `said` name, and whether all is well; raises Fault. Of several channels there is one line
    for each break, with what each of them showed: those of which the same is said stand together."""
    found = [report_kept(it, said) for it in said.kept]
    is_well = all(is_well for _, is_well in found)
    if len(found) == 1:
        return [f"{name}: {text}" if name else text for name, text in found[0][0]], is_well
    groups: dict[tuple[str, str], dict[str, list[str]]] = {}
    for path, (lines, _) in zip(said.kept, found):
        for name, text in lines:
            channels = groups.setdefault((name, "" if name else text), {}).setdefault(text, [])
            channels.append(path.name.removesuffix(".events"))
    return [(f"{name}: " if name else "") + "; ".join(f"{', '.join(dict.fromkeys(channels))}: {text}" for text, channels in its.items()) for (name, _), its in groups.items()], is_well


def report_kept(path: Path, said: argparse.Namespace) -> tuple[list[tuple[str, str]], bool]:
    """What is to be said of what is kept in the file `path`, by the words `said`, each with the ID of the break that it is about, or an empty one; and whether
    all is well. Raises Fault."""
    if not journal.files(path):
        raise Fault(f"{path}: there is no such file; adsplice-feed --keep DIR writes DIR/NAME.events")
    book = Book(path)
    until = min(said.at or book.newest(), book.newest())
    if not until:
        raise Fault(f"{path}: it has no event")
    since = words.time_text(datetime.fromisoformat(until) - HOUR)
    names = [said.only] if said.only else book.breaks(since, until)
    lines = [] if said.only else [("", it) for it in refusals(book.refused(since, until))]
    is_well = not lines
    for name in names:
        explainer = Explainer(Excerpt(book, name, until).run())
        found, is_filled = report(explainer, name)
        lines += [(name, it.removeprefix(f"{name}: ")) if it.startswith(f"{name}: ") else ("", it) for it in found] + [("", it) for it in (segments_of(explainer) if said.all else [])]
        is_well = is_well and is_filled
    return lines or [("", f"no playlist that was kept from {since} on has a break")], is_well and bool(names)


def main(arguments: list[str]) -> int:
    """Explains; answers the exit status."""
    said = read_words(arguments)
    words.ends_cleanly()
    try:
        if said.kept is not None:
            lines, is_well = report_programme(said)
        else:
            explainer = Explainer(run_beside(find_program(said.program), given_by_files(said.files, said.base, said.tolerance)))
            lines, is_well = report(explainer, said.only)
            lines += segments_of(explainer) if said.all else []
        words.write_out("".join(f"{words.plain(it)}\n" for it in dict.fromkeys(lines)))
        return 0 if is_well else EMPTY
    except (Fault, OSError, NotModelled) as fault:
        words.fail("adsplice-explain", f"the rules have no answer to {fault}" if isinstance(fault, NotModelled) else str(fault))
