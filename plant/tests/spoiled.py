"""Decision files that are spoiled in one place, and whether adsplice-pod --check and the program say the same of each."""
import json
import sys
from collections import Counter
from random import Random

from tools import PLANT

sys.path[:0] = [PLANT]
from adsplice_plant.judge import judge  # noqa: E402
from adsplice_plant.program import run_vod  # noqa: E402
from adsplice_rules.decisions import MOST_POD_SEGMENTS  # noqa: E402

BASE = "http://nowhere.invalid/index.m3u8"
VALUES = (None, True, 0, -1, 1.5, 1e3, 2**64, "", "x", "2", "2,5", "-1", "1e3", "999999.9", "1000000", "a\tb", 'a"b', "é" * 128, "http://a/b", "http://a/b c", "HTTP://a/b",
          "//a/b", "0x1", "0X" + "f" * 33, "NONE", "AES-128", "aes", [], {}, [5], {"uri": "http://a/b"})


def segment(rng, place):
    """A segment that is right."""
    return {"uri": f"http://ads.example/a{place}.ts", "duration": rng.choice(("2", "6.006", ".5", "007."))} | (
        {"offset": rng.choice((0, 5, 2**63)), "length": rng.choice((1, 2**63 - 1))} if rng.random() < 0.3 else {})


def ad(rng):
    """An ad that is right."""
    key = {"method": "AES-128", "uri": "http://ads.example/k", "iv": "0x1"} | ({"format": "com.example"} if rng.random() < 0.5 else {})
    return ({"map": {"uri": "http://ads.example/i.mp4"} | ({"offset": 0, "length": 20} if rng.random() < 0.5 else {})} if rng.random() < 0.4 else {}) | (
        {"key": key} if rng.random() < 0.4 else {}) | {"segments": [segment(rng, place) for place in range(rng.choice((1, 2, 5)))]}


def right(rng):
    """A decision file that is right."""
    kind = rng.random()
    if kind < 0.1:
        return {"withdraw": "b1"}
    ads = [[ad(rng) for _ in range(rng.choice((1, 1, 2)))] for _ in range(rng.choice((1, 2, 3)))]
    return {"fallback": rng.choice((None, {"ads": ads[0]}))} if kind < 0.25 else {"breaks": [{"id": f"b{n}", "ads": it} for n, it in enumerate(ads)]}


def places_in(value, path=()):
    """The path of each member and item of a JSON value."""
    items = value.items() if isinstance(value, dict) else enumerate(value) if isinstance(value, list) else ()
    for name, it in items:
        yield (*path, name)
        yield from places_in(it, (*path, name))


def spoil(rng, value):
    """Spoils one place of a file; answers the path of what is other than it was."""
    path = rng.choice(list(places_in(value)))
    owner = value
    for name in path[:-1]:
        owner = owner[name]
    how = rng.random()
    if how < 0.2:
        del owner[path[-1]]
    elif how < 0.3 and isinstance(owner, list):
        owner.insert(path[-1], owner[path[-1]])
    elif how < 0.35 and isinstance(owner, list):
        owner[path[-1]:] = owner[path[-1]:] * (MOST_POD_SEGMENTS + 1)
    elif how < 0.45 and isinstance(owner, dict):
        owner[rng.choice(("breaks", "withdraw", "fallback", "id", "ads", "offset", "length", "uri"))] = rng.choice(VALUES)
    else:
        owner[path[-1]] = rng.choice(VALUES)
    return path


def file_of(rng):
    """The bytes of a spoiled file, and the path of what was spoiled; none if it was its text."""
    value = right(rng)
    path = spoil(rng, value) if rng.random() < 0.9 else None
    text = json.dumps(value, ensure_ascii=rng.random() < 0.5).encode()
    if path is None:
        place = rng.randrange(len(text))
        text = text[:place] + rng.choice((b"", b",", b"}", b"\xff", b"-", b'"', b"0", b"\\ud800", b"\n")) + text[place + rng.choice((0, 1, len(text))):]
    return text, path


def differences(program, seed, numbers, counts):
    """What the program says otherwise of these spoiled files, and sentences that don't name the member; `counts` faults by code."""
    found = []
    for number in numbers:
        body, path = file_of(Random(f"{seed}/{number}"))
        wrong, (_, fault) = judge(body), run_vod(program, BASE, b"", body)
        owed = "" if fault.startswith(("P3 ", "J11 ")) else fault  # (the empty playlist was read, or a withdrawal found no pod)
        said = wrong.fault if wrong else ""
        counts[said.partition(" ")[0] or "right"] += 1
        if said != owed or (wrong and ("\n" in wrong.line() or not is_named(path, wrong))):
            found.append(f"{number}: {body[:200]!r} is {owed!r}, and judged {said!r} {wrong.line() if wrong else ''}")
    return found


def is_named(path, wrong):
    """Whether a sentence names the member that was spoiled, or what it is in, or that it has one too many."""
    names = [it for it in path or () if isinstance(it, str)]
    return path is None or any(f"`{it}`" in wrong.line() or f"{it.rstrip('s')} " in wrong.line() for it in (*names, "file")) or wrong.line().startswith(names[-1:][0] if names else "")


def main(arguments):
    """Judges COUNT spoiled files: PROGRAM SEED COUNT."""
    program, seed, count = arguments
    counts = Counter()
    found = differences(program, int(seed), range(int(count)), counts)
    print(dict(counts), f"{len(found)} otherwise", *found[:10], sep="\n  ")
    return 1 if found else 0


if __name__ == "__main__":
    sys.exit(main(sys.argv[1:]))
