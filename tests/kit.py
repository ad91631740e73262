"""The kit's command rt as a module, and proofs of libraries side by side, over what earlier ones kept in crates/*/out."""
from __future__ import annotations

import importlib.machinery
import importlib.util
import os
import sys
from collections.abc import Callable
from concurrent.futures import FIRST_COMPLETED, Future, ThreadPoolExecutor, wait
from typing import Any

from words import end, toolchain

ROOT = os.path.dirname(os.path.dirname(os.path.abspath(__file__)))
LOGS = f"{ROOT}/out/proofs"  # what the check of each library says
CHECK_BYTES = 4_000_000_000  # the most that one check was seen to take


def load_rt() -> Any:
    """The command as a module: it knows how a crate is checked. Called once, in the main thread."""
    path = os.path.realpath(toolchain())
    with open(path, encoding="utf-8", errors="replace") as it:
        if "python" not in it.readline():
            end("the command rt has another form than this script knows")
    loader = importlib.machinery.SourceFileLoader("rt", path)
    spec = importlib.util.spec_from_loader("rt", loader)
    assert spec is not None
    sys.modules["rt"] = made = importlib.util.module_from_spec(spec)
    loader.exec_module(made)
    made.rtlib.guarded()  # (its first call sets a signal's handler: what is started behind its words ends when this process does)
    return made


def lanes() -> int:
    """How many checks run side by side: one a processor, as many as memory holds."""
    room = os.sysconf("SC_PAGE_SIZE") * os.sysconf("SC_PHYS_PAGES") // CHECK_BYTES
    return max(1, min(len(os.sched_getaffinity(0)), room))


def chains_above(libraries: list[Any]) -> dict[str, int]:
    """For each library the lines of the longest chain of libraries that wait for it, with its own."""
    lines = {it.name: it.count(rb"\n") for it in libraries}
    chains = dict(lines)
    for it in sorted(libraries, key=lambda it: -len(it.below())):
        for low in it.below():
            chains[low.name] = max(chains[low.name], lines[low.name] + chains[it.name])
    return chains


def prove_one(library: Any, jobs: int) -> bool:
    """Whether a library is proved, over what is kept of it; at once if its kept proof is of these sources."""
    with open(f"{LOGS}/{library.name}.log", "w", encoding="utf-8") as library.out:
        return library.build_rlib(["--jobs", str(jobs)], anew=False) == 0


def some_ended(running: dict[Future[bool], Any]) -> set[Future[bool]]:
    """Those proofs that have ended, after a second at most. If the script is stopped it ends, and the kit's guard ends the proofs."""
    try:
        return wait(running, 1, FIRST_COMPLETED).done
    except KeyboardInterrupt:
        os._exit(130)


def prove(libraries: list[Any], tell: Callable[[int], None]) -> list[str]:
    """Proves libraries that have all those below them, first those for which the longest chain waits. `tell` is given once a
    second how many are proved. The names of those that aren't in the end: each failed, or stands above one that did."""
    os.makedirs(LOGS, exist_ok=True)
    chains, left, proved = chains_above(libraries), list(libraries), set[str]()
    running: dict[Future[bool], Any] = {}
    with ThreadPoolExecutor(lanes()) as pool:
        while True:
            ready = sorted((it for it in left if all(low.name in proved for low in it.below())), key=lambda it: -chains[it.name])
            for at, it in enumerate(ready[: lanes() - len(running)]):
                left.remove(it)
                jobs = max(1, (lanes() - len(running)) // (len(ready) - at))
                running[pool.submit(prove_one, it, jobs)] = it
            if not running:
                return [it.name for it in libraries if it.name not in proved]
            for ended in some_ended(running):
                it = running.pop(ended)
                proved |= {it.name} if ended.result() else set()
            tell(len(proved))
