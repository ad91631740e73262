"""Large texts: as many bytes, segments, breaks or levels as may be, and one more."""
import json

MAX_BYTES = 4_194_304
MAX_SEGMENTS = 10_000
OUT = b"0xFC302000000000000000FFF00F05000000017FFFFE002932E000010000000000000000"
# (it may follow a playlist of the segments 0 and 1)
HEAD = b"#EXTM3U\n#EXT-X-TARGETDURATION:10\n#EXT-X-MEDIA-SEQUENCE:2\n"


def segments(count, more=lambda n: b""):
    return b"".join(b"%s#EXTINF:10,\ns%d.ts\n" % (more(n), n) for n in range(count))


def many_segments(rng):
    return HEAD + segments(MAX_SEGMENTS + rng.choice((-1, 0, 1)))


def long_segments(rng):
    """The most segments, with URIs that fill the text."""
    room = (MAX_BYTES - len(HEAD)) // MAX_SEGMENTS - 12
    return HEAD + b"".join(b"#EXTINF:1,\n%0*d\n" % (room, n) for n in range(MAX_SEGMENTS))


def empty_lines(rng):
    tail = segments(1)
    return HEAD + b"\n" * (MAX_BYTES - len(HEAD) - len(tail) + rng.choice((-1, 0, 1))) + tail


def one_line(rng):
    tail = b"#EXTINF:10,\ns.ts\n"
    return HEAD + b"#" * (MAX_BYTES - len(HEAD) - len(tail) - 1 + rng.choice((0, 1))) + b"\n" + tail


def long_reference(rng):
    head = HEAD + b"#EXTINF:10,\n"
    return head + rng.choice((b"a", b"/", b"../", b"%", b"?", b"\xc3\xa9")) * rng.choice((10_000, 100_000, 1_000_000)) + b"\n"


def date_ranges(rng):
    ranges = b"".join(b'#EXT-X-DATERANGE:ID="%05x"\n' % n for n in range(140_000))
    return HEAD + ranges + b"#EXT-X-PROGRAM-DATE-TIME:2024-05-01T12:00:00Z\n" + segments(1)


def breaks_at_one_start(rng):
    ranges = b"".join(b'#EXT-X-DATERANGE:ID="%d",START-DATE="2024-05-01T12:00:00Z",DURATION=10,SCTE35-OUT=%s\n' % (n, OUT)
                      for n in range(5000))
    stated = b"#EXT-X-PROGRAM-DATE-TIME:2024-05-01T12:00:00Z\n"
    return HEAD + ranges + segments(MAX_SEGMENTS, lambda n: stated)


def long_attribute(rng):
    return HEAD + b'#EXT-X-DATERANGE:ID="b",X-A="' + b"a" * rng.choice((100_000, 4_000_000)) + b'"\n' + segments(2)


def keys_in_turns(rng):
    """A new key with a long URI before each of many segments."""
    uri = b"k" * 300
    return HEAD + segments(8000, lambda n: b'#EXT-X-KEY:METHOD=AES-128,URI="%d%s",IV=0x5\n' % (n, uri))


def key_in_force(rng):
    """One key whose IVs are told by the segments' numbers: it is written again for each of them."""
    return HEAD + b'#EXT-X-KEY:METHOD=AES-128,URI="%s"\n' % (b"k" * rng.choice((10, 1000))) + segments(2000)


def sixteen_formats(rng):
    keys = b"".join(b'#EXT-X-KEY:METHOD=AES-128,URI="k",IV=0x5,KEYFORMAT="f%d"\n' % n for n in range(16))
    return HEAD + segments(2000, lambda n: keys)


def discontinuities(rng):
    return HEAD + b"#EXT-X-DISCONTINUITY\n" * 190_000 + segments(2)


def many_breaks(rng):
    segment = {"uri": "http://ads.example/a.ts", "duration": "1"}
    ads = [{"segments": [segment] * rng.choice((1, 50))}]
    breaks = [{"id": f"b{n}", "ads": ads} for n in range(rng.choice((256, 257, 2000)))]
    return json.dumps({"breaks": breaks}).encode()


def many_ads(rng):
    segment = {"uri": "http://ads.example/a.ts", "duration": "1"}
    return json.dumps({"breaks": [{"id": f"b{n}", "ads": [{"segments": [segment]}] * 500} for n in range(100)]}).encode()


def deep(rng):
    return rng.choice((b"[", b'{"a":', b'{"breaks":[')) * rng.choice((127, 128, 129, 300_000))


def long_string(rng):
    return b'{"withdraw":"' + rng.choice((b"a", b"\\u0041", b"\\\\")) * 400_000 + b'"}'


def long_number(rng):
    return b'{"x":' + rng.choice((b"1", b"0.", b"1e", b"-")) + b"9" * rng.choice((300, 1_000_000)) + b',"breaks":[]}'


REFRESHES = (many_segments, long_segments, empty_lines, one_line, long_reference, date_ranges, breaks_at_one_start,
             long_attribute, keys_in_turns, key_in_force, sixteen_formats, discontinuities)
DECISION_FILES = (many_breaks, many_ads, deep, long_string, long_number)
LARGE = [(b"refresh", made) for made in REFRESHES] + [(b"decide", made) for made in DECISION_FILES]
