"""Gives cases to the test driver (crates/test_driver), and compares each answer with what the model owes."""
from __future__ import annotations

import re
import subprocess
import tempfile
from collections.abc import Iterator

from .cases import Connections, Run

SECONDS = 600  # for all cases of one call
MARK, MARKED = b"mark\n", re.compile(rb"^no event\n", re.MULTILINE)  # no event: its answer ends the one before it
ROOM = 65_536  # bytes of a reply that the driver's sink takes
ESCAPES = {n: chr(n) if 32 <= n < 127 else f"\\x{n:02x}" for n in range(256)} | {10: "\\n", 13: "\\r", 92: "\\\\"}
SHOWN = 200  # bytes of an answer that are shown

Step = tuple[bytes, bytes]  # a line, and what has to be answered


def escaped(body: bytes) -> bytes:
    """A body as a part of one line."""
    return body.decode("latin-1").translate(ESCAPES).encode()


def steps_of_run(case: Run) -> Iterator[Step]:
    """A run as events of a channel, up to the first fault."""
    fault = case.fault.encode() + b"\n"
    code = case.fault[:1]
    yield f"channel 100000000 {case.base}".encode(), fault if code == "C" else b"ok\n"
    if case.decisions is not None and code != "C":
        yield b"decide " + escaped(case.decisions), fault if code == "J" else b"ok\n"
    if code not in ("C", "J"):
        first, count, fresh = case.numbers
        yield b"refresh " + escaped(case.given), fault if code else f"ok {first} {count} {fresh}\n".encode()
    if not case.fault:
        yield b"playlist", b"playlist\n" + case.text.encode() + b"\n"


def steps_of_connections(case: Connections) -> Iterator[Step]:
    """Connections to a new edge."""
    yield b"edge", b""
    for given, reply in case.asked:
        owed = b"E4 Ended\n\n" if reply is None else reply.split(b" ")[1] + b"\n" + reply + b"\n"
        yield b"serve 8192 0 65536 0 " + escaped(given), owed


def steps_of(case: Run | Connections) -> list[Step]:
    """The lines of a case, each with its answer."""
    return list(steps_of_run(case) if isinstance(case, Run) else steps_of_connections(case))


def can_be_given(case: Run | Connections) -> bool:
    """Whether the driver has room for each reply."""
    return isinstance(case, Run) or all(len(reply or b"") <= ROOM for _, reply in case.asked)


def differences(driver: str, cases: list[Run | Connections]) -> list[str]:
    """What the driver answers otherwise than the model owes, a text for each case that has such an answer."""
    steps = [(case, line, owed) for case in cases if can_be_given(case) for line, owed in steps_of(case)]
    given = b"".join(line + b"\n" + MARK for _, line, _ in steps)
    with tempfile.TemporaryFile() as file:
        file.write(given)
        file.seek(0)
        ran = subprocess.run([driver], stdin=file, capture_output=True, timeout=SECONDS, check=False)
    answers = MARKED.split(ran.stdout)[:-1]
    found: dict[str, str] = {}
    for (case, line, owed), answer in zip(steps, answers):
        if answer != owed:
            found.setdefault(case.name, f"{case.name}: to {line[:SHOWN]!r}: {answer[-SHOWN:]!r}, owed {owed[-SHOWN:]!r}")
    if (len(answers), ran.returncode) != (len(steps), 0):
        found["end"] = f"the driver ended after {len(answers)} of {len(steps)} lines with status {ran.returncode}"
    return list(found.values())
