"""Playlists in all forms that a line may have, and with each fault; near each limit."""
from __future__ import annotations

from collections.abc import Callable
from random import Random

from .common import BASES, FORMATS, Origin, is_lucky, text_of

Lines = list[str]
NO_BASES = ("", "ftp://h/", "http://", "//h/x", "origin.example/x", "https://h:99999/", "http://a b/", "data:x", "http://[::1")
ODD_BASES = ("http://h/a/b/../c?d#e", "https://h:443", "http://H%41.example/x y", "http://1.2.3.4/", "http:\\\\h\\x\\y",
             "http:h/x", "http:/h/x", "HTTPS://u@h", "http://:p@h/", "http://u:@h/", "http://@h/", "http://h:/",
             "http://h:080/", "http://h:0/x", "http://h:65535/", "http://h:65536/", "http://[::FFFF:1.2.3.4]/",
             "http://[1:2:3:4:5:6:7:8]/", "http://[1::8]/", "http://[::1/", "http://[1:2]/", "http://[::1%25]/",
             "http://[v1.a]/", "http://a..b/", "http://a./x", "http://-a-/", "http://a_b/", "http://a^b/", "http://a|b/",
             "http://a<b/", "http://a%b/", "http://a%20b/", "http://a%2fb/", "http://h?x", "http://h#x", "http://h/%zz",
             "http://h/a;b=c", "http://h/a'b?c'd", 'http://h/"q"', "  http://h/ ", "http://h/a/./b/.", "http://h/a/%2E%2e/b",
             "http://h//", "http://h/.", "http://h/..", "http:///x", "http:////h//x", "http://", "https:", "http:?x", "//h/",
             "h", "/x", "http//h", "http://255.255.255.255/", "http://256.1.1.1/", "http://1.2.3.4.5/", "http://u:p:q@h/",
             "http://u@v@h/", "http://a:b@/", "http://h:1:2/", "http://h:x/", "http://[::1]x/", "http://[::1]:80/",
             "http://h/\xe9?\xe9#\xe9", "http://h:00000080/", "http://a\x7fb/", "http://h/\\..\\x")
NUMBERS = ("0", "1", "00000000000000000010", "18446744073709551615", "18446744073709551616", "000000000000000000010", "-1", "+1",
           "1.0", "", " 1", "1 ", "0x1", "٣")
DURATIONS = ("10", "9.976666666666667", "5.", ".5", "0", "999999.999999999", "1000000", "0000001.5", "", ".", "-1", "1e3", "1.2.3",
             "10 ", "٣", "000000000999999")
TIMES = ("2024-05-01T14:00:10.25+02:00", "2024-05-01T12:00:10.1000001", "2024-05-01T07:30:10.000000001-0430",
         "1900-01-01T00:00:00Z", "1899-12-31T23:59:59.999999999Z", "2199-12-31T23:59:59.999999999Z", "2200-01-01T00:00:00Z",
         "2200-01-01T00:30:00+01:00", "2199-12-31T23:59:59-00:01", "2024-02-30T00:00:00Z", "2000-02-29T00:00:00-00:00",
         "1900-02-29T00:00:00Z", "2024-05-01T24:00:00Z", "2024-05-01T12:00:60Z", "2024-05-01T12:60:00Z", "2024-05-01t12:00:00Z",
         "2024-05-01T12:00:00z", "2024-05-01T12:00:00.Z", "2024-05-01T12:00:00.1234567890Z", "2024-05-01T12:00:00+24",
         "2024-05-01T12:00:00+23:59", "2024-05-01T12:00:00+00:60", "2024-05-01T12:00:00+2", "", "2024-5-01T12:00:00Z",
         "0000-05-01T12:00:00Z", "9999-12-31T23:59:59Z", "2024-05-01T12:00:00-0860", "2024-05-01 12:00:00Z")
URIS = ("x.ts", "SKD://k", "http:", "a1+-.:b", "../a b?q#f", "//cdn.example/s", ":", "1a:b", "a_b:c", "a/b:c", " spaced.ts ",
        "é.ts", "/abs/s^.ts", "?q'x", "//[", "//[::1]/x", "//256.1.1.1/", "//1.2.3.4/", "a\\b\\..\\c", "%2e%2E/x", "./", "..", "data:a\"b",
        "a\"b", "//h:65536/", "//h:80/", "//u:p@h/", "//@/", "//", "\u00a0", "\ufeff", "#not-a-comment"[1:], "{}`<>|", "x#", "x?",
        " http:y", " HTTPS://Z.Example/%", "//%41.example/", "//a%00/", "s;p=1,2!$&'()*+=@~_-")
ODD_URIS = ("..//x", "../../../x", "./../x", "a//b", "//", "/", "///x", "\\\\h\\x", "\\x", "x\\..\\y", "?", "#", "?a#b?c#d",
            'x?\'"<> `{}', 'x#\'"<> `{}', "%", "%41", "a%2Fb", "..%2f", "%2e", "%2E.", "%2e%2e%2f", "a/.", "a/..", "a/../",
            "a/./", "//h", "//H/", "//h:80", "//h:443", "//h:8080/x", "//u@h", "//[::1]", "//a..", "/..", "/../x", "x;y",
            "x:y", "./x:y", "~", "*", "(", "a b", "a\xa0b", "a\u2028b", "\u3000", "x ", "  x", "x?  ", "x#  ", "?  ",
            "\U0001f4fa")
RANGES = ("5@0", "5@2", "5", "5", "0", "18446744073709551610@5", "1@18446744073709551609", "1@18446744073709551609", "6", "7@18446744073709551615", "18446744073709551615", "5@", "x")
ATTRIBUTES = ('A=1', 'B="x,y"', 'C-2=0xFf', 'D=""', "a=1", "A", "A=x y", 'A="x', 'A=1,A=2', "A=", "=1", 'A="x"y', "A=1,", ",A=1", "",
              "A =1", "A= 1", 'A=x"y', "A=\u00a0", 'A="\u3000"')


def chosen(rng: Random, lines: Lines, name: str) -> int:
    """The place of a line of this tag, or of any line after the first."""
    places = [n for n, line in enumerate(lines) if line.startswith(f"#{name}")]
    return rng.choice(places) if places else rng.randrange(1, len(lines) + 1)


def put(rng: Random, lines: Lines, *more: str) -> Lines:
    """The lines with these in some place."""
    at = rng.randrange(1, len(lines) + 1)
    return [*lines[:at], *more, *lines[at:]]


def valued(rng: Random, lines: Lines, name: str, values: tuple[str, ...]) -> Lines:
    """The lines with one of these values at a tag, in the place of one that is there, or beside it."""
    at = chosen(rng, lines, name)
    return [*lines[:at], f"#{name}:{rng.choice(values)}", *lines[at + (1 if is_lucky(rng, 0.8) else 0):]]


# ---- what may be there

def attributes_at_limit(rng: Random) -> str:
    """A list of 63 to 66 attributes."""
    return ",".join(["ID=\"r\"", *(f"X-{n}={n}" for n in range(1, rng.choice((63, 64, 65, 66))))])


def key_line(rng: Random) -> str:
    """An EXT-X-KEY of any form."""
    parts = [rng.choice(("METHOD=AES-128", "METHOD=SAMPLE-AES", "METHOD=NONE", "METHOD=X", 'METHOD="AES-128"')),
             rng.choice(('URI="k1"', 'URI="k2"', "URI=k", 'URI=""', f'URI="{rng.choice(URIS)}"'))]
    parts += [rng.choice(("IV=0x1", "IV=0XaBcDeF", "IV=0x" + "f" * 32, "IV=0x" + "f" * 33, "IV=1", "IV=0x", 'IV="0x1"'))] \
        if is_lucky(rng, 0.5) else []
    parts += [rng.choice((f'KEYFORMAT="{rng.choice(FORMATS)}"', "KEYFORMAT=identity"))] if is_lucky(rng, 0.6) else []
    parts += [rng.choice(('KEYFORMATVERSIONS="1/2"', "X-A=b"))] if is_lucky(rng, 0.3) else []
    if is_lucky(rng, 0.15):
        parts.pop(rng.randrange(len(parts)))
    if is_lucky(rng, 0.3):
        rng.shuffle(parts)
    return "#EXT-X-KEY:" + ",".join(parts)


def map_line(rng: Random) -> str:
    """An EXT-X-MAP of any form."""
    part = rng.choice(("", "", ',BYTERANGE="9@4"', ',BYTERANGE="9"', ",BYTERANGE=9@4", ',BYTERANGE="9@"',
                       ',BYTERANGE="18446744073709551615@1"', ',X-B="c"'))
    return rng.choice(('#EXT-X-MAP:URI="i.mp4"', '#EXT-X-MAP:URI="j.mp4"', "#EXT-X-MAP:URI=i.mp4", '#EXT-X-MAP:X="1"',
                       f'#EXT-X-MAP:URI="{rng.choice(URIS)}"')) + part


def range_line(rng: Random) -> str:
    """An EXT-X-DATERANGE of any form."""
    parts = [rng.choice(('ID="r1"', 'ID="r2"', 'ID=""', "ID=r", 'CLASS="c"')),
             rng.choice((f'START-DATE="{rng.choice(TIMES)}"', "START-DATE=2024-05-01T12:00:00Z"))]
    parts += [f"{name}={rng.choice(DURATIONS)}" for name in ("DURATION", "PLANNED-DURATION") if is_lucky(rng, 0.3)]
    parts += [f'END-DATE="{rng.choice(TIMES)}"'] if is_lucky(rng, 0.3) else []
    parts += [rng.choice(("END-ON-NEXT=YES", "SCTE35-CMD=0xFC", "SCTE35-OUT=zz", 'X-Q="é"'))] if is_lucky(rng, 0.4) else []
    return "#EXT-X-DATERANGE:" + (attributes_at_limit(rng) if is_lucky(rng, 0.1) else ",".join(parts))


HARMLESS = ("", "   ", "# a comment", "#EXTM3U", "#EXT-X-CUE-OUT:30", "#EXT-X-UNKNOWN", "#EXT-X-START:TIME-OFFSET=1", "#EXT-X-ENDLIST:",
            "#EXT-X-DISCONTINUITY:", "#EXT-X-I-FRAMES-ONLY:", "#ext-x-endlist", "#EXTINFO:9", "#EXT-X-INDEPENDENT-SEGMENTS",
            "#EXT-X-DISCONTINUITY", "#EXTINF:3,", "#EXTINF:4", "#EXT-X-ALLOW-CACHE:NO", "#")


def with_uri(rng: Random, lines: Lines) -> Lines:
    """One URI in another form."""
    at = rng.choice([n for n, line in enumerate(lines) if line and not line.startswith("#")] or [len(lines)])
    return [*lines[:at], rng.choice(rng.choice((URIS, ODD_URIS))), *lines[at + 1:]]


def with_ranges(rng: Random, lines: Lines) -> Lines:
    """Byte ranges at several segments, some without an offset."""
    made: Lines = []
    for line in lines:
        if line and not line.startswith("#") and is_lucky(rng, 0.7):
            made.append("#EXT-X-BYTERANGE:" + rng.choice(RANGES[:rng.choice((5, 5, len(RANGES)))]))
            line = rng.choice(("one.ts", "one.ts", line))
        made.append(line)
    return made


def with_formats(rng: Random, lines: Lines) -> Lines:
    """Keys of 15 to 17 formats, one of them perhaps twice."""
    count = rng.choice((15, 16, 17, 17))
    keys = [f'#EXT-X-KEY:METHOD=X,URI="k",IV=0x{n:x},KEYFORMAT="f{n}"' for n in range(count)]
    keys.insert(rng.randrange(len(keys)), '#EXT-X-KEY:METHOD=X,URI="l",IV=0x7,KEYFORMAT="f1"')
    return put(rng, lines, *keys)


def with_sections(rng: Random, lines: Lines) -> Lines:
    """Sections and keys in any order, from the front on or from some place."""
    made = [rng.choice((key_line, map_line))(rng) for _ in range(rng.randrange(1, 4))]
    made += ['#EXT-X-KEY:METHOD=AES-128,URI="k"', '#EXT-X-MAP:URI="i.mp4"'] if is_lucky(rng, 0.15) else []
    return [lines[0], *made, *lines[1:]] if is_lucky(rng, 0.6) else put(rng, lines, *made)


def of_many_segments(rng: Random, lines: Lines) -> Lines:
    """10,000 segments, or one more: a limit of the reader."""
    return ["#EXTM3U", "#EXT-X-TARGETDURATION:1"] + ["#EXTINF:1", "a"] * rng.choice((10_000, 10_001))


def of_many_bytes(rng: Random, lines: Lines) -> Lines:
    """4,194,304 bytes, or one more."""
    size = 4_194_304 + rng.choice((0, 1, 1)) - sum(len(line.encode()) + 1 for line in lines)
    return [*lines, "#" + "x" * (size - 2)]


GOOD: tuple[Callable[[Random, Lines], Lines], ...] = (
    lambda rng, lines: put(rng, lines, rng.choice(HARMLESS)),
    with_uri, with_ranges, with_formats, with_sections,
    lambda rng, lines: put(rng, lines, range_line(rng)),
    lambda rng, lines: put(rng, lines, key_line(rng)),
    lambda rng, lines: valued(rng, lines, "EXTINF", tuple(f"{text},t" for text in DURATIONS) + DURATIONS),
    lambda rng, lines: valued(rng, lines, "EXT-X-PROGRAM-DATE-TIME", TIMES),
    lambda rng, lines: valued(rng, lines, "EXT-X-MEDIA-SEQUENCE", NUMBERS),
    lambda rng, lines: valued(rng, lines, "EXT-X-DISCONTINUITY-SEQUENCE", NUMBERS),
    lambda rng, lines: valued(rng, lines, "EXT-X-TARGETDURATION", NUMBERS),
    lambda rng, lines: valued(rng, lines, "EXT-X-VERSION", (*NUMBERS, "7", "8", "3")),
    lambda rng, lines: valued(rng, lines, "EXT-X-PLAYLIST-TYPE", ("EVENT", "VOD", "LIVE", "vod", "")),
    lambda rng, lines: valued(rng, lines, "EXT-X-DATERANGE", tuple(f'ID="a",{text}' for text in ATTRIBUTES) + ATTRIBUTES),
)

# ---- what may not

NOTHING: Lines = []

FAULTY: tuple[Callable[[Random, Lines], Lines], ...] = (
    lambda rng, lines: put(rng, lines, rng.choice(("\x00", "x\x1f", "#\x7f", "\u0085", "#EXT-X-\x9f", "cr\rhere", "#EXTINF:1,\x0b"))),
    lambda rng, lines: rng.choice((lines[1:], ["\ufeff" + lines[0], *lines[1:]], ["", *lines], ["#EXTM3U ", *lines[1:]],
                                   ["#EXTM3U\x01", *lines[1:]], NOTHING)),
    lambda rng, lines: put(rng, lines, rng.choice(("#EXT-X-STREAM-INF:BANDWIDTH=1", "#EXT-X-MEDIA", "#EXT-X-I-FRAME-STREAM-INF:X",
                                                   "#EXT-X-SESSION-DATA:A=1", "#EXT-X-SESSION-KEY"))),
    lambda rng, lines: put(rng, lines, "#EXT-X-I-FRAMES-ONLY"),
    lambda rng, lines: put(rng, lines, rng.choice(("#EXT-X-VERSION:3", "#EXT-X-TARGETDURATION:x", "#EXT-X-ENDLIST", "#EXT-X-ENDLIST",
                                                   "#EXT-X-MEDIA-SEQUENCE:x", "#EXT-X-DISCONTINUITY-SEQUENCE:x",
                                                   "#EXT-X-PLAYLIST-TYPE:EVENT"))),
    lambda rng, lines: [line for line in lines if not line.startswith("#EXTINF")] if is_lucky(rng, 0.5) else put(rng, lines, "late.ts"),
    lambda rng, lines: [line for line in lines if not line.startswith("#EXT-X-TARGET")],
    lambda rng, lines: [line for line in lines if line.startswith("#") or not line],
    lambda rng, lines: put(rng, lines, rng.choice(("#EXTINF", "#EXT-X-KEY", "#EXT-X-VERSION", "#EXT-X-BYTERANGE", "#EXT-X-MAP:"))),
    lambda rng, lines: [*lines, '#EXT-X-MAP:URI="late.mp4"', "#EXTINF:1,", "tail.ts"],
)


def playlist(rng: Random) -> Lines:
    """The lines of a playlist with none, one or several things about it."""
    origin = Origin(rng)
    origin.grow(rng.choice((1, 2, 3, 5)))
    if is_lucky(rng, 0.3):
        origin.add_break(rng.randrange(len(origin.pieces)), 1)
    lines = origin.window(0, len(origin.pieces) - 1, is_lucky(rng, 0.5))
    if is_lucky(rng, 1 / 4000):
        return of_many_segments(rng, lines)
    if is_lucky(rng, 1 / 400):
        return of_many_bytes(rng, lines)
    for _ in range(rng.choice((0, 1, 1, 2, 3))):
        lines = rng.choice(GOOD)(rng, lines) if lines[1:] else lines
    if is_lucky(rng, 0.3) and lines[1:]:
        lines = rng.choice(FAULTY)(rng, lines)
    return lines


def case(rng: Random) -> tuple[str, bytes, None]:
    """A run: its base, its input, and no decision file."""
    base = rng.choice(rng.choice((NO_BASES, ODD_BASES, ODD_BASES))) if is_lucky(rng, 0.06) else rng.choice(BASES)
    lines = playlist(rng)
    given = text_of(lines, rng) if lines else b""
    if is_lucky(rng, 0.01):
        at = rng.randrange(len(given) + 1)
        given = given[:at] + rng.choice((b"\xff", b"\xc3", b"\xed\xa0\x80", b"\xf4\x90\x80\x80")) + given[at:]
    return base, given, None
