"""What `plant/adsplice_rules/run --why` says of breaks that wait, worked by hand: for each cause a channel, and how its line begins."""
from __future__ import annotations

from adsplice_rules.channel import Channel, decide, refreshed
from adsplice_rules.uris import base_of
from adsplice_rules.why import reasons

BASE = "http://origin.example/ch/index.m3u8"
OUT = "SCTE35-OUT=0xFC302000000000000000FFF00F05000000017FFFFE002932E000010000000000000000"  # leaves for 30 s
POD = '{"breaks":[{"id":"b1","ads":[{"segments":[{"uri":"http://ads.example/a.ts","duration":"10"}]}]}]}'
FALLBACK = '{"fallback":{"ads":[{"segments":[{"uri":"http://ads.example/f.ts","duration":"10"}]}]}}'


def daterange(name: str, start: str, more: str = "") -> str:
    """The tag of a break that starts at this time of day."""
    return f'#EXT-X-DATERANGE:ID="{name}",START-DATE="2024-05-01T{start}Z",{OUT}{more}\n'


def playlist(first: int, last: int, ranges: str, time: str = "#EXT-X-PROGRAM-DATE-TIME:2024-05-01T12:00:00Z\n") -> str:
    """Segments of 10 s, of which the first that is listed states a time, if one is given."""
    segments = "".join(f"#EXTINF:10,\ns{n}.ts\n" for n in range(first, last + 1))
    return f"#EXTM3U\n#EXT-X-TARGETDURATION:10\n#EXT-X-MEDIA-SEQUENCE:{first}\n{ranges}{time}{segments}"


def time_of(number: int) -> str:
    """The time tag of a segment, of the first six."""
    return f"#EXT-X-PROGRAM-DATE-TIME:2024-05-01T12:00:{10 * number:02}Z\n"


B1 = daterange("b1", "12:00:10")
TWO = daterange("b1", "12:00:10", ",DURATION=10") + daterange("b2", "12:00:30", ",DURATION=10")

# A name, the events, and the front of the line that is owed for the break b1 at their end.
CASES = (
    ("to come", (POD, playlist(0, 1, daterange("b1", "12:00:25"))),
     "break b1: Waiting: it is still to come: it starts 5 s after the end of the newest segment."),
    ("no segment near", (POD, playlist(0, 3, daterange("b1", "12:00:14"))),
     "break b1: Waiting: no segment began within the tolerance of its START-DATE: segment 1 is the nearest, at "
     "2024-05-01T12:00:10.000Z, 4 s before it."),
    ("no times", (POD, playlist(0, 3, B1, "")), "break b1: Waiting: no segment has a time (EXT-X-PROGRAM-DATE-TIME)"),
    ("decided too late", (playlist(0, 2, B1), POD, playlist(0, 2, B1)),
     "break b1: Waiting: it came too late: when segment 1 was first shown, no decision had given it a pod"),
    ("announced too late", (POD, playlist(0, 2, ""), playlist(1, 3, B1, time_of(1))),
     "break b1: Waiting: it came too late: when segment 1 was first shown, the playlist didn't have it."),
    ("in another break", (FALLBACK, playlist(0, 3, daterange("b0", "12:00:00", ",DURATION=20") + B1)),
     "break b1: Waiting: segment 1, which began there, belongs to the break b0."),
    ("filled before", (FALLBACK, *(playlist(n, n + 2, TWO, time_of(n)) for n in range(5))),
     "break b1: Waiting: it was filled from segment 1 on, and its pod has left the playlist."),
    ("over", (POD, playlist(0, 2, daterange("b1", "12:00:10", ",DURATION=0.1"))),
     "break b1: Waiting: when segment 1 was first shown, it had ended, or ends within the tolerance."),
)


def differences() -> list[str]:
    """What the model says otherwise than worked by hand."""
    found = []
    for name, events, owed in CASES:
        channel = Channel(base_of(BASE))
        for event in events:
            take = decide if event.startswith("{") else refreshed
            channel = take(channel, event.encode())
        said = [line for line in reasons(channel) if line.startswith("break b1: ")]
        if len(said) != 1 or not said[0].startswith(owed):
            found.append(f"why, {name}: {said}, owed {owed!r}")
    return found
