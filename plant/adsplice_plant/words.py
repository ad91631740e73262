"""What the programs have in common: how values of their words are read, how a fault is told, and how they end."""
import argparse
import os
import re
import signal
import sys
import threading
from collections.abc import Callable
from datetime import datetime, timezone
from enum import IntEnum
from types import FrameType
from typing import NoReturn

from . import urls

FAULT, WRONG_WORDS = 1, 2  # exit statuses
OUT, ERROR = 1, 2  # descriptors of standard output and standard error
LONGEST_SHOWN = 120  # characters of a URL in a line
NO_URL = "what isn't a URL"
NEEDED = {"origin", "adsplice", "fallback"}  # who of a feed's lines has no status only if it isn't there
USUAL = {"Asked", "First", "Begins", "Ends", "Removed", "Over"}  # words in place of a fault that tell of nothing wrong
NOTED = {"Repaired", "Held", "Lags", "Ignored", "Cancelled", "Moved"}  # and of what the feed mends by itself
NAME = re.compile(r"[a-z0-9-]{1,32}")  # of a channel


class Fault(Exception):
    """A fault that ends a program: its text is the one line that is printed."""


def parser(name: str, text: str) -> argparse.ArgumentParser:
    """A reader of words for the program `name`, whose help is `text`."""
    return argparse.ArgumentParser(prog=name, description=text, formatter_class=argparse.RawDescriptionHelpFormatter)


def channel_name(text: str) -> str:
    """The channel name `text`; raises if adsplice has no channel of such a name."""
    if not NAME.fullmatch(text):
        raise argparse.ArgumentTypeError(f"{text!r} isn't 1 to 32 of a to z, 0 to 9 and '-'")
    return text


def web_address(text: str) -> str:
    """The http or https URL `text`, without a slash at its end."""
    parts = urls.parts_of(text)
    if parts is None or parts.scheme not in ("http", "https") or not parts.host:
        raise argparse.ArgumentTypeError(f"{shown(text)!r} isn't a URL that begins with http:// or https://")
    if parts.is_port_wrong:
        raise argparse.ArgumentTypeError(f"{shown(text)!r}: its port isn't one from 0 to 65535")
    return text.rstrip("/")


def without_user(url: str) -> str:
    """The web address `url` without `user:password@`: what viewers, logs and pages may have of it. Of one that doesn't read they have nothing."""
    found = urls.without_user(url)
    return NO_URL if found is None else found


def shown(url: str) -> str:
    """The `url` as a line has it: without a user, and without what comes behind its path. Both may have secrets."""
    return without_user(url).partition("?")[0].partition("#")[0][:LONGEST_SHOWN]


def seconds(text: str) -> float:
    """The number of seconds `text`, more than 0 and at most a day."""
    try:
        value = float(text)
    except ValueError:
        value = 0
    if not 0 < value <= 86400:
        raise argparse.ArgumentTypeError(f"{text!r} isn't a number of seconds above 0, of at most a day")
    return value


def fail(name: str, text: str, status: int = FAULT) -> NoReturn:
    """Ends the program `name` with the line `text` on standard error, and with exit status `status`."""
    print(for_journal(f"{name}: {plain(text)}", Level.ERROR, ERROR), file=sys.stderr, flush=True)
    sys.exit(status)


class Level(IntEnum):
    """How grave a line is, as journald counts (sd-daemon(3))."""

    ERROR = 3
    WARNING = 4
    NOTICE = 5
    INFO = 6


def for_journal(line: str, level: Level, number: int = OUT) -> str:
    """The `line` with its `level` as journald reads it, if the file of the descriptor `number` is journald's (JOURNAL_STREAM); else
    as it is."""
    try:
        found = os.fstat(number)
    except OSError:
        return line
    return f"<{level.value}>{line}" if os.environ.get("JOURNAL_STREAM") == f"{found.st_dev}:{found.st_ino}" else line


def level_of(line: str) -> Level:
    """How grave a `line` of a feed is: its time, channel, who, status and fault, and a text after a colon."""
    parts = line.split(" ")
    place = next((n for n, it in enumerate(parts) if n > 2 and (it == "-" or (len(it) == 3 and it.isascii() and it.isdigit()))), 0)
    if not 0 < place < len(parts) - 1:
        return Level.INFO
    who, status, fault = parts[2], parts[place], parts[place + 1].rstrip(":")
    if who == "feed":
        return Level.ERROR
    if fault in NOTED:
        return Level.NOTICE
    if fault == "-":
        is_wrong = who in NEEDED if status == "-" else int(status) >= 400 and status != "409"
        return Level.WARNING if is_wrong else Level.INFO
    return Level.INFO if fault in USUAL else Level.WARNING


def write_out(text: str, number: int = OUT) -> None:
    """Writes `text` in UTF-8 to standard output, or to the file of the descriptor `number`; if nobody reads it any more
    (`| head`), the rest is dropped. Raises Fault if it can't be written."""
    data = memoryview(text.encode("utf-8", "replace"))
    try:
        while data:
            data = data[os.write(number, data):]
    except BrokenPipeError:
        os.dup2(os.open(os.devnull, os.O_WRONLY), number)
    except OSError as fault:
        raise Fault(f"standard {'output' if number == OUT else 'error'}: {fault.strerror}") from None


class Teller:
    """Tells lines on standard output, or the file of the descriptor `number`, for a program that goes on if it can't: a full disk
    costs lines and nothing else. For journald each line has its `level`."""

    def __init__(self, number: int = OUT, level: Callable[[str], Level] = level_of) -> None:
        """No line was lost yet."""
        self.number, self.level, self.lost, self.lock = number, level, 0, threading.Lock()

    def say(self, line: str) -> None:
        """Prints `line`, or counts it as lost; how many were lost is told by the next one that can be printed."""
        with self.lock:
            lost = f"\n{now_text()} {self.lost} lines couldn't be written\n" if self.lost else ""
            try:
                write_out(f"{lost}{for_journal(plain(line), self.level(line), self.number)}\n", self.number)
                self.lost = 0
            except Fault:
                self.lost += 1


def time_text(time: datetime) -> str:
    """The instant `time` in UTC, to milliseconds."""
    return time.astimezone(timezone.utc).isoformat(timespec="milliseconds").replace("+00:00", "Z")


def now_text() -> str:
    """The time of day in UTC, to milliseconds."""
    return time_text(datetime.now(timezone.utc))


def plain(text: str) -> str:
    """`text` as it may be shown on a terminal: what isn't printed, as a control character, a line end or a byte that isn't
    UTF-8, is written as \\x1b or \\u2028."""
    return "".join(it if it.isprintable() else shown_code(ord(it)) for it in text)


def shown_code(code: int) -> str:
    """How the character of the number `code` is written that can't be shown; a lone surrogate stands for a byte."""
    if 0xDC80 <= code <= 0xDCFF:
        code -= 0xDC00
    return f"\\x{code:02x}" if code < 0x100 else f"\\u{code:04x}" if code < 0x10000 else f"\\U{code:08x}"


def ends_by_signals(anew: threading.Event | None = None) -> threading.Event:
    """An event that SIGTERM, SIGINT (Ctrl-C) and SIGHUP set: the program ends with status 0 once it sees it. If there is `anew`, SIGHUP sets that:
    the program then reads its settings anew."""
    ending = threading.Event()
    events = {signal.SIGTERM: ending, signal.SIGINT: ending, signal.SIGHUP: ending if anew is None else anew}

    def note(number: int, _frame: FrameType | None) -> None:
        events[signal.Signals(number)].set()

    for number in events:
        signal.signal(number, note)
    return ending


def ends_cleanly() -> None:
    """Has SIGTERM, SIGINT (Ctrl-C) and SIGHUP end the program through its blocks, so that what these started ends with them."""

    def end(number: int, _frame: FrameType | None) -> None:
        sys.exit(128 + number)

    for it in (signal.SIGTERM, signal.SIGINT, signal.SIGHUP):
        signal.signal(it, end)
