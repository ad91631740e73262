"""Work on all processors, and an end on Ctrl-C, SIGTERM or SIGHUP that leaves nothing behind."""
from __future__ import annotations

import os
import signal
import sys
from collections.abc import Callable
from concurrent.futures import ThreadPoolExecutor
from types import FrameType
from typing import TypeVar

Given = TypeVar("Given")
Found = TypeVar("Found")
STOPPED = 130  # the exit status


def each_of(work: Callable[[Given], Found], given: list[Given]) -> list[Found]:
    """What work makes of each, as many at a time as there are processors. If it is stopped, what has begun is ended first, and
    no more is begun."""
    with ThreadPoolExecutor(os.cpu_count()) as workers:
        try:
            return list(workers.map(work, given))
        except KeyboardInterrupt:
            workers.shutdown(cancel_futures=True)
            raise


def stop(_: int, __: FrameType | None) -> None:
    """Stops as Ctrl-C does."""
    raise KeyboardInterrupt


def run_until_stopped(main: Callable[[list[str]], int]) -> int:
    """The exit status of a script with the words of the command line; 130 if it was stopped, or nobody reads its output."""
    for one in (signal.SIGINT, signal.SIGTERM, signal.SIGHUP):  # (a shell has what it starts by & ignore the first)
        signal.signal(one, stop)
    try:
        status = main(sys.argv[1:])
        sys.stdout.flush()
        return status
    except KeyboardInterrupt:
        return STOPPED
    except BrokenPipeError:
        os.dup2(os.open(os.devnull, os.O_WRONLY), sys.stdout.fileno())
        return STOPPED
