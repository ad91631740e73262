"""A written playlist that is looked at again and again: what is new in it is read, and the rest is known from the look before."""
from __future__ import annotations

from dataclasses import replace

from . import playlist
from .playlist import Listed, Reader

ALIKE = 400  # bytes at a list's end by which it is found in the next one
SEGMENT, RANGE, END = b"\n#EXTINF:", b"\n#EXT-X-DATERANGE:", b"#EXT-X-ENDLIST"


class Written:
    """The list as it was looked at last: its `body`, what it lists, and the part of the body that is new (`fresh`)."""

    def __init__(self) -> None:
        """No list was seen yet."""
        self.body = b""
        self.listed = Listed()
        self.fresh = b""

    def take(self, body: bytes) -> bool:
        """Takes in the list `body`; whether it isn't the one of before."""
        if body == self.body:
            return False
        self.fresh = body
        self.listed = self.grown(body) or playlist.read(body)
        self.body = body
        return True

    def grown(self, body: bytes) -> Listed | None:
        """What `body` lists if it is the list of before, without some segments at its front and with some more at its end (RFC 8216,
        6.2.1); none if it isn't, or that can't be told by their bytes."""
        first, end = body.find(SEGMENT) + 1, body.rfind(self.body[-ALIKE:]) + min(ALIKE, len(self.body))
        begin = len(self.body) - (end - first)
        if len(self.body) < ALIKE or not 0 < first < end or begin <= 0 or not self.body.endswith(b"\n") or self.body.find(RANGE, begin) >= 0:
            return None
        if END in self.body[-ALIKE:] or self.body[begin:] != body[first:end]:
            return None
        head, gone = playlist.read(body[:first]), self.body.count(SEGMENT, 0, begin)
        if head.first != self.listed.first + gone or gone >= len(self.listed.segments):
            return None
        found = replace(head, segments=self.listed.segments[gone:])
        reader, last = Reader(), found.segments[-1]
        reader.next = None if last.begins is None else last.begins + last.duration
        for line in playlist.lines_in(body[end:].decode("utf-8", "replace")):
            reader.line(found, line)
        if len(found.segments) >= playlist.MOST:
            return None
        self.fresh = body[end:]
        return found
