"""Playlists of an origin, and those that are owed, line by line."""
import json
from collections import namedtuple
from datetime import datetime, timedelta

OUT = "0xFC302000000000000000FFF00F05000000017FFFFE002932E000010000000000000000"  # leaves for 30 s
NOT_OUT = "0xFC301B00000000000000FFF00A05000000017F5F00010000000000000000"  # returns
AD = "http://ads.example/"
# the durations of advertisements: n0 and n1 are a nanosecond off 10 s
DURATIONS = {"a0": "8", "a1": "9.5", "x0": "10", "x1": "10", "x2": "10", "y0": "10", "n0": "9.999999999", "n1": "10.000000001"}

# A segment that is written: the instant at which it begins, if it states one; its media and its discontinuity number;
# how many discontinuities come before it.
Item = namedtuple("Item", "name time media discontinuity steps")


def instant(seconds):
    """A time text, this long after noon."""
    at = datetime(2024, 5, 1, 12) + timedelta(microseconds=round(seconds * 1_000_000))
    text = at.isoformat(timespec="milliseconds" if at.microsecond % 1000 == 0 else "microseconds")
    return text + "Z"


def daterange(break_id, start, more="", out=OUT):
    """What stands after the colon of a break's EXT-X-DATERANGE."""
    signal = f",SCTE35-OUT={out}" if out else ""
    return f'ID="{break_id}",START-DATE="{instant(start)}"{"," if more else ""}{more}{signal}'


def ad(names):
    """An ad of these segments."""
    return {"segments": [{"uri": f"{AD}{name}.ts", "duration": DURATIONS[name]} for name in names]}


def decisions(*breaks):
    """A decision file: for each break its ID and the names of its pod's segments, all in one ad."""
    return json.dumps({"breaks": [{"id": break_id, "ads": [ad(names)]} for break_id, names in breaks]})


def fallback(names):
    """A decision file that gives this fallback, of one ad, or takes it away."""
    return json.dumps({"fallback": names and {"ads": [ad(names)]}})


def origin_text(first, last, *, ranges=(), times=None, header=(), before=None, durations=None, names=None, titles=None,
                sequence=None, version=6, target=10, ended=False):
    """An origin's playlist of the segments first to last, each of 10 s; segment 0 states noon, if no times are given.
    `before`: further lines before a segment."""
    times = {0: instant(0)} if times is None else times
    lines = ["#EXTM3U", f"#EXT-X-VERSION:{version}", f"#EXT-X-TARGETDURATION:{target}",
             f"#EXT-X-MEDIA-SEQUENCE:{first if sequence is None else sequence}", *header]
    lines += [f"#EXT-X-DATERANGE:{tag}" for tag in ranges]
    for number in range(first, last + 1):
        lines += (before or {}).get(number, [])
        if number in times:
            lines.append(f"#EXT-X-PROGRAM-DATE-TIME:{times[number]}")
        lines += [f"#EXTINF:{(durations or {}).get(number, '10')},{(titles or {}).get(number, '')}",
                  (names or {}).get(number, f"s{number}") + ".ts"]
    return "\n".join(lines + ["#EXT-X-ENDLIST"] * ended) + "\n"


def window(words, media=0, discontinuity=0, times=None):
    """A window from its names, with a stroke for each discontinuity. A kept segment states 10 s times its number, if no
    other time is given, and none if that is None."""
    items, steps = [], 0
    for word in words.split():
        if word == "/":
            steps += 1
            continue
        discontinuity += steps
        time = None if word in DURATIONS else (times or {}).get(word, instant(10 * int(word[1:])))
        items.append(Item(word, time, media + len(items), discontinuity, steps))
        steps = 0
    return items


def owed_lines(item, durations, titles):
    lines = ["#EXT-X-DISCONTINUITY"] * item.steps
    if item.time:
        lines.append(f"#EXT-X-PROGRAM-DATE-TIME:{item.time}")
    where = AD if item.name in DURATIONS else "http://origin.example/ch/"
    seconds = DURATIONS.get(item.name) or durations.get(item.name, "10")
    return [*lines, f"#EXTINF:{seconds},{titles.get(item.name, '')}", f"{where}{item.name}.ts"]


def owed_text(items, *, ranges=(), durations=None, titles=None, header=(), version=6, target=10, ended=False):
    """The playlist that is owed for a window of the stitched list."""
    lines = ["#EXTM3U", f"#EXT-X-VERSION:{version}", f"#EXT-X-TARGETDURATION:{target}",
             f"#EXT-X-MEDIA-SEQUENCE:{items[0].media}",
             f"#EXT-X-DISCONTINUITY-SEQUENCE:{items[0].discontinuity - items[0].steps}", *header]
    lines += [f"#EXT-X-DATERANGE:{tag}" for tag in ranges]
    for item in items:
        lines += owed_lines(item, durations or {}, titles or {})
    return "\n".join(lines + ["#EXT-X-ENDLIST"] * ended) + "\n"
