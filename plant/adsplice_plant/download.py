"""Files of ads, which are larger than an answer may be: they come in pieces (byte ranges, RFC 9110, 14), each of which is bounded as all answers."""
from __future__ import annotations

import hashlib
import re
import time
from collections.abc import Callable
from dataclasses import dataclass
from pathlib import Path
from typing import BinaryIO

from .ad_server import Asking
from .web import Answer
from .words import Fault

PIECE = 2 << 20  # bytes that are asked for at a time
RANGE = re.compile(r"bytes ([0-9]{1,15})-([0-9]{1,15})/([0-9]{1,15})")
AGAIN = 3  # times that a piece is asked for


@dataclass(frozen=True)
class Fetched:
    """A file that was fetched: the hash of its bytes, how many there are, and the server's mark for this version of it (`tag`, ETag)."""

    sum: str
    size: int
    tag: str


def front(client: Asking, url: str, begin: int = 0, count: int = PIECE) -> tuple[bytes, int]:
    """The bytes of the file at `url` from the place `begin` on, at most `count`, and how many bytes the file has. `client` asks for them. Raises Fault."""
    answer = client.ask("GET", url, None, {"Range": f"bytes={begin}-{begin + count - 1}"})
    if answer.status == 200:
        return answer.body[begin:begin + count], len(answer.body)
    return answer.body, said_range(answer, begin, begin + count)[1]


def said_range(answer: Answer, begin: int, end: int) -> tuple[int, int]:
    """Where the piece ends that the `answer` has, which was asked for from `begin` up to `end`, and how many bytes the file has; raises Fault."""
    if answer.status != 206:
        raise Fault(answer.why or f"the server answers {answer.status}")
    said = RANGE.fullmatch(answer.fields.get("content-range", "").strip())
    if said is None:
        raise Fault("the server answers a part of the file without Content-Range")
    first, last, total = (int(it) for it in said.groups())
    if first != begin or last - first + 1 != len(answer.body) or not first <= last < min(end, total):
        raise Fault("the server answers another part of the file than was asked for")
    return last + 1, total


class Download:
    """The file at `url`, which `client` fetches into `to`: of `most` bytes, within `seconds`. `is_over` says whether it is to be given up."""

    def __init__(self, client: Asking, url: str, to: BinaryIO, most: int, seconds: float, is_over: Callable[[], bool]) -> None:
        self.client, self.url, self.to, self.most, self.is_over = client, url, to, most, is_over
        self.seconds, self.until = seconds, time.monotonic() + seconds
        self.sum, self.at, self.tag = hashlib.sha256(), 0, ""

    def run(self) -> Fetched:
        """Fetches it; raises Fault, or OSError if it can't be written."""
        total = None
        while total is None or self.at < total:
            answer = self.piece()
            if answer.status == 200 and not self.at:
                self.take(answer.body, len(answer.body))
                return Fetched(self.sum.hexdigest(), self.at, answer.fields.get("etag", ""))
            end, size = said_range(answer, self.at, self.at + PIECE)
            tag = answer.fields.get("etag", "")
            if total is not None and (size, tag) != (total, self.tag):
                raise Fault("the file changed while it was fetched")
            total, self.tag = size, tag
            self.take(answer.body, total)
        return Fetched(self.sum.hexdigest(), self.at, self.tag)

    def take(self, body: bytes, total: int) -> None:
        """The next bytes are `body`, of a file of `total` bytes."""
        if total > self.most:
            raise Fault(f"the file has {total} bytes, over {self.most}")
        if not total:
            raise Fault("the file is empty")
        self.to.write(body)
        self.sum.update(body)
        self.at += len(body)

    def piece(self) -> Answer:
        """The answer with the next piece; one that doesn't come is asked for again."""
        for n in range(AGAIN):
            if self.is_over():
                raise Fault("the program ends")
            if time.monotonic() > self.until:
                raise Fault(f"the file didn't come within {self.seconds:g} s")
            answer = self.client.ask("GET", self.url, None, {"Range": f"bytes={self.at}-{self.at + PIECE - 1}"})
            if answer.status and answer.status < 500:
                return answer
        if answer.why.startswith("an answer of more than"):
            raise Fault(f"{answer.why}; the server has to answer byte ranges")
        return answer


def has_changed(client: Asking, url: str, tag: str) -> bool:
    """Whether the file at `url`, for which `client` asks, isn't the one any more of which the server said the `tag`. A server that gives none doesn't
    say, so it may have changed; if it doesn't answer, it has not."""
    if not tag:
        return True
    answer = client.ask("GET", url, None, {"Range": "bytes=0-0", "If-None-Match": tag})
    return answer.status in (200, 206) and answer.fields.get("etag", "") != tag
