"""How far a build is, told on standard error."""
from __future__ import annotations

import sys
import time


class Progress:
    """Tells how many of so many crates are proved, and how long it has taken: each second on a terminal, and elsewhere a line
    for each crate."""

    def __init__(self, crates: int) -> None:
        self.crates, self.begun, self.told, self.at_once = crates, time.monotonic(), -1, sys.stderr.isatty()

    def tell(self, proved: int) -> None:
        if self.at_once or proved != self.told:
            minutes = int(time.monotonic() - self.begun) // 60
            line = f"{proved} of {self.crates} crates proved, {minutes} minute{'' if minutes == 1 else 's'} so far"
            print(f"\r\033[K{line}" if self.at_once else line, end="" if self.at_once else "\n", file=sys.stderr, flush=True)
            self.told = proved

    def end(self) -> None:
        """Clears the terminal's line."""
        if self.at_once:
            print("\r\033[K", end="", file=sys.stderr, flush=True)
