"""What a list says of breaks that adsplice doesn't see by itself, for a person who looks for the reason why one is empty."""
from __future__ import annotations

from . import packaged, splice
from .date_ranges import is_leaving
from .packaged import DATE_RANGE
from .playlist import seconds_text
from .signals import Cues, Signal, is_translated, style_of
from .splice import Kind, Unread

CMD = "EXT-X-DATERANGE with SCTE35-CMD"  # the style of date ranges of which adsplice itself says nothing
BY_ITSELF = "adsplice by itself takes EXT-X-DATERANGE with SCTE35-OUT alone, which adsplice-feed makes of it"


def unseen(lines: list[str]) -> list[tuple[str, str]]:
    """What the `lines` of a list say of breaks that adsplice doesn't see by itself: a sentence for the first tag of each style, with
    the style. Of a list that signals a break to adsplice it is what ends or cancels one, of another what begins one. (Sections in
    SCTE35-OUT adsplice reads, and says itself why one signals nothing.)"""
    ranges = [packaged.attributes_of(line.partition(":")[2]) for line in lines if line.startswith(DATE_RANGE)]
    kinds = (Kind.END, Kind.CANCEL) if any(is_leaving(it) for it in ranges) else (Kind.BEGIN,)
    found: dict[str, str] = {}
    for number, line in enumerate(lines, 1):
        style = style_of(line)
        if style and style not in found and (text := text_of(line, style, kinds)):
            found[style] = f"line {number}: {text}"
    return list(found.items())


def text_of(line: str, style: str, kinds: tuple[Kind, ...]) -> str:
    """What the tag `line` of a `style` says that adsplice doesn't see, of these `kinds`; empty if it says nothing of that."""
    name, _, rest = line[1:].partition(":")
    if not is_translated(style):
        return f"{name} signals in a style that nobody here translates: it begins no break"
    if style.startswith("EXT-X-DATERANGE"):
        said = packaged.attributes_of(rest)
        return "" if style != CMD or "SCTE35-OUT" in said else section_text(said["SCTE35-CMD"], f"SCTE35-CMD of {said.get('ID', '')[:100]}", kinds)
    reader = Cues()
    reader.line(line)
    read = reader.end()
    if read.unread:
        return read.unread[0]
    says = next((it for it in read.signals if it.message.kind == Kind.BEGIN in kinds and it.elapsed is None), None)
    return "" if says is None else f"{name} {signal_text(says)}: {BY_ITSELF}"


def section_text(text: str, name: str, kinds: tuple[Kind, ...]) -> str:
    """What the section `text` of the attribute `name` says of a break, of these `kinds`; empty if it says nothing of one."""
    try:
        says = next((it for it in splice.read(text).messages if it.kind in kinds), None)
    except Unread as fault:
        return f"{name}: a section that doesn't read: {fault}"
    return "" if says is None else f"{name} {signal_text(Signal(says))}: {BY_ITSELF}"


def signal_text(signal: Signal) -> str:
    """What a `signal` says, in words."""
    message, duration = signal.message, signal.planned or signal.message.duration
    what = {Kind.CANCEL: "cancels the break", Kind.END: "ends a break", Kind.BEGIN: "begins a break"}[message.kind]
    length = f" of {seconds_text(duration)} s" if duration and message.kind == Kind.BEGIN else ""
    of = f" of event {message.event}" if message.event else ""
    return f"{what}{length}{of}" + (f" ({message.name()})" if message.type is not None else "")
