"""The words of a script's command line, and the faults that end it before it begins: one line, and status 2."""
from __future__ import annotations

import os
import re
import shutil
import signal
import sys
from collections.abc import Iterable
from typing import NoReturn

NO_KIT = ("the command rt isn't on the path. It is the Rattle kit's, which proves and compiles this program: "
          "CONTRIBUTING.md, 'Set up', says what the kit is and where it comes from")

MAIN = os.path.join(os.path.dirname(os.path.dirname(os.path.abspath(__file__))), "crates/adsplice/src/main.rt")


def end(why: str, status: int = 2) -> NoReturn:
    """Ends the script with a line that says why it can't begin."""
    print(f"{os.path.basename(sys.argv[0])}: {why}", file=sys.stderr)
    sys.exit(status)


def help_at(words: list[str], said: str | None) -> None:
    """Prints what the script says of itself, and ends it, if that is asked."""
    if set(words) & {"--help", "-h"}:
        signal.signal(signal.SIGPIPE, signal.SIG_DFL)  # (as when only the first lines are read)
        print((said or "").strip())
        sys.exit(0)


def usage() -> str:
    """What the program says of words that it doesn't take, as its source has it. Fails if that has none."""
    with open(MAIN, encoding="utf-8") as it:
        return str(re.findall(r'^const USAGE: &str = "(.*)\\n";$', it.read(), re.MULTILINE)[0])


def program_at(word: str) -> str:
    """The whole path of a program that a word names. A name without a slash is looked for in this folder, and then on the path."""
    path = os.path.abspath(word)
    if os.path.isfile(path) and os.access(path, os.X_OK):
        return path
    found = shutil.which(word)
    if found is None or "/" in word:
        end(f"there is no program {word}: tests/build makes one and prints its path")
    return found


def programs_in(words: list[str], count: int, said: str | None) -> list[str]:
    """The programs that the words name, which are so many; each word after them is left alone."""
    help_at(words, said)
    if len(words) < count:
        end(f"it takes {count} word{'s' if count > 1 else ''}: --help says which")
    return [program_at(word) for word in words[:count]]


def files_at(words: list[str]) -> list[str]:
    """The files that the words name."""
    for word in words:
        if not os.path.isfile(word):
            end(f"there is no file {word}")
    return words


def told(kind: str, faults: Iterable[str]) -> int:
    """Prints what is wrong of each case, nothing of one that is right, and how many passed; the exit status."""
    passed = failed = 0
    for fault in faults:
        passed, failed = passed + (not fault), failed + bool(fault)
        if fault:
            print(fault)
    print(f"{kind}: {passed} passed, {failed} failed")
    return 1 if failed or not passed else 0


def number_at(words: list[str], place: int, usual: int) -> int:
    """The whole number, from 1, at a place of the words, or the usual one if the words end before it."""
    if len(words) <= place:
        return usual
    if not words[place].isdecimal() or not int(words[place]):
        end(f"{words[place]} isn't a whole number from 1")
    return int(words[place])


def toolchain(status: int = 2) -> str:
    """The path of the command rt; the script ends with this status if there is none."""
    found = shutil.which("rt")
    if found is None:
        end(NO_KIT, status)
    return found


def kit_folder() -> str:
    """The folder of the kit."""
    return os.path.dirname(os.path.dirname(os.path.realpath(toolchain())))


def write_files(folder: str, texts: dict[str, str]) -> None:
    """Writes files below a folder, by their paths."""
    for path, text in texts.items():
        os.makedirs(os.path.dirname(f"{folder}/{path}"), exist_ok=True)
        with open(f"{folder}/{path}", "w", encoding="utf-8") as it:
            it.write(text)
