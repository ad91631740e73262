"""New cases of each family of tests/make_vectors, against the test driver, for as long as time is given."""
import signal
import sys
import time
from pathlib import Path
from random import SystemRandom

from programs import TOP, built

sys.path.insert(0, str(Path(TOP) / "tests"))

from making.cases import FAMILIES, case_of  # noqa: E402
from making.driven import can_be_given, differences  # noqa: E402

BATCH = 500  # cases of a family that are given at a time, to a fresh process


def batch_of(family, seed, first, count):
    """The cases of these numbers which the model says something of, and for whose replies the driver has room."""
    drawn = [case_of(family, seed, number) for number in range(first, min(first + BATCH, count))]
    return [case for case in drawn if case is not None and can_be_given(case)]


def batches(driver, families, seed, most, until):
    """Gives batches of each family in turn, until there were so many cases of each or the time is up. For each: its family, how
    many cases it had, and what differs."""
    for first in range(0, most, BATCH):
        for family in families:
            if time.monotonic() > until:
                return
            cases = batch_of(family, seed, first, most)
            yield family, len(cases), differences(driver, cases)


def stop(*_):
    raise KeyboardInterrupt


def main(folder, seconds="1800", seed=None, count=None, family=None):
    """Draws cases until the time is up, there were so many of each family, or it is stopped; the exit status."""
    seed = SystemRandom().randrange(10**6) if seed is None else int(seed)
    driver, until = built("test_driver", folder), time.monotonic() + int(seconds)
    print(f"soak: model, seed {seed}", flush=True)
    if family not in (None, *FAMILIES):
        sys.exit(f"bench/soak: no family {family}: {', '.join(FAMILIES)}")
    given, failed = dict.fromkeys((family,) if family else FAMILIES, 0), 0
    signal.signal(signal.SIGTERM, stop)
    try:
        for of, cases, found in batches(driver, list(given), seed, 10**9 if count is None else int(count), until):
            given[of] += cases
            failed += len(found)
            for one in found:
                print(one, flush=True)
            if of == list(given)[-1] and given[of] // 10_000 > (given[of] - cases) // 10_000:
                print(told(given), flush=True)
    except KeyboardInterrupt:
        print("stopped")
    print(told(given))
    print(f"soak: {sum(given.values()) - failed} passed, {failed} failed")
    return 1 if failed else 0


def told(given):
    """How many cases of each family were given."""
    return ", ".join(f"{number} {family}" for family, number in given.items())
