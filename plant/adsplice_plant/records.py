"""A text on disk that changes often and by little: what changed is added to the file, and now and then it is written as a whole.

The first line of the file is the text, a JSON document. Each line after it is a JSON object, whose `edit` makes the next text of the
one before (edits.py). For that the document is looked at in pieces that end where a line of a list or a member does.
"""
from __future__ import annotations

import json
from collections.abc import Mapping
from pathlib import Path

from .edits import edit_of_lines, edited, lines_of
from .journal import append
from .whole_files import write_aside

WHOLE = 2  # times a text's length, after so much of differences it is written as a whole again
TAIL = 16_384  # bytes at a file's end in which the newest line is looked for


def pieces_of(text: str) -> list[str]:
    """The pieces of the JSON document `text`, each with an LF at its end, which JSON in one line doesn't have."""
    return lines_of(text.replace("\\n", "\\n\n").replace(", ", ", \n"))


class Record:
    """The text in the file `path`, which this process alone writes."""

    def __init__(self, path: Path) -> None:
        """Nothing is known of what the file has: the first text is written as a whole."""
        self.path = path
        self.pieces: list[str] | None = None  # of the text in the file
        self.since = 0  # bytes of differences in it

    def write(self, text: str, beside: Mapping[str, object]) -> None:
        """The file has the JSON document `text` from now on; `beside` are the members that the line of a difference has, too. Raises
        OSError if it can't be written."""
        before, self.pieces = self.pieces, None
        now = pieces_of(text)
        if before is None or self.since > WHOLE * len(text) or not self.path.exists():
            write_aside(self.path, text.encode() + b"\n")
            self.since = 0
        else:
            data = json.dumps({**beside, "edit": edit_of_lines(before, now)}).encode() + b"\n"
            append(self.path, data)
            self.since += len(data)
        self.pieces = now


def read(path: Path) -> bytes:
    """The newest text in the file `path`. A line that was left unfinished is passed over. Raises OSError, and ValueError if the file
    isn't such a one."""
    first, *rest = path.read_bytes().split(b"\n")
    pieces = pieces_of(first.decode()) if rest[:-1] else [first.decode()]
    for line in rest[:-1]:
        try:
            pieces = edited(pieces, json.loads(line)["edit"])
        except (KeyError, TypeError, RecursionError):
            raise ValueError("a line of it is none of a difference") from None
    return "".join(pieces).replace("\n", "").encode()


def newest(path: Path) -> object:
    """What the newest line in the file `path` says, whether it is the text or a difference; none if it doesn't read."""
    try:
        with open(path, "rb") as it:
            size = it.seek(0, 2)
            it.seek(max(0, size - TAIL))
            lines = it.read().split(b"\n")
            if len(lines) < 3:  # (it may begin within the line)
                it.seek(0)
                lines = it.read().split(b"\n")
        return json.loads(lines[-2] if len(lines) > 1 else lines[-1])
    except (OSError, ValueError, RecursionError):
        return None
