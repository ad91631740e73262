#!/usr/bin/env python3
"""Inputs of any size, in five shapes, and hostile ones.

  gen.py DIR [N ...]      writes DIR/<shape>-<N>.m3u8 and DIR/<shape>-<N>.json for N in 10 100 1000 10000, and
                          DIR/hostile-<name>.m3u8 with DIR/hostile-<name>.json

plain: segments alone, of which no break is signalled. break: one program date time, one break of 30 s, a pod of two segments. encrypted: the same
under AES-128 without IV (each kept segment then states its own IV: the longest output a line of input can ask for).
rich: all that a packager writes: a key tag every 20 segments, half of them without IV, maps under a key of their own, a date on each
segment, byte ranges with and without offset, titles, comments, unknown tags, a discontinuity every 50 segments and a
break of three segments every 40, each with its own two-ad pod. filled: a break of three segments every 20, of which
every other one is decided (a decision file holds 256 breaks at most), each with its own pod of two segments.

Hostile, each as large as a playlist may be, or with as many segments: many-breaks has 10,000 segments and 5,000
breaks, of which 250 are decided; one-start the same with all breaks at one instant, and all segments near it;
near-breaks has 10,000 segments near 25,000 breaks that have ended, and a fallback; date-ranges 145,000 date ranges of one
segment. Without decisions: dated-ranges has 67,600 date ranges with a time,
empty-lines four million empty lines, many-attributes 10,000 keys of 42 attributes."""
import json, os, sys

MAX_BYTES = 4_194_304  # of a playlist that is read

OUT30 = "0xFC302000000000000000FFF00F05000000017FFFFE002932E00001" + "0" * 16
RANGE = '#EXT-X-DATERANGE:ID="b1",START-DATE="2024-05-01T12:00:10Z",SCTE35-OUT=' + OUT30
AB = {"breaks": [{"id": "b1", "ads": [{"segments": [
    {"uri": "http://ads.example/a0.ts", "duration": "8"},
    {"uri": "http://ads.example/a1.ts", "duration": "9.5"}]}]}]}


def civil(ms):
    import datetime
    t = datetime.datetime(2024, 5, 1, 12, tzinfo=datetime.timezone.utc) + datetime.timedelta(milliseconds=ms)
    return t.strftime("%Y-%m-%dT%H:%M:%S.") + "%03dZ" % (t.microsecond // 1000)


def plain(n):
    l = ["#EXTM3U", "#EXT-X-TARGETDURATION:10"]
    for i in range(n):
        l += ["#EXTINF:9.5," if i == 2 else "#EXTINF:10,", "s%d.ts" % i]
    return l + ["#EXT-X-ENDLIST"], AB


def with_break(n, head=()):
    l = ["#EXTM3U", "#EXT-X-VERSION:3", "#EXT-X-TARGETDURATION:10", *head, RANGE,
         "#EXT-X-PROGRAM-DATE-TIME:2024-05-01T12:00:00Z"]
    for i in range(n):
        l += ["#EXTINF:10,", "s%d.ts" % i]
    return l + ["#EXT-X-ENDLIST"], AB


def encrypted(n):
    return with_break(n, ["#EXT-X-MEDIA-SEQUENCE:7", '#EXT-X-KEY:METHOD=AES-128,URI="k1"'])


def rich(n):
    l = ["#EXTM3U", "#EXT-X-VERSION:7", "#EXT-X-TARGETDURATION:6", "#EXT-X-MEDIA-SEQUENCE:1000",
         "#EXT-X-DISCONTINUITY-SEQUENCE:3", "#EXT-X-INDEPENDENT-SEGMENTS", "## made by a packager"]
    breaks = []
    ms = 0
    for i in range(n):
        if i % 40 == 5:
            b = "ad-%06d" % i
            l.append('#EXT-X-DATERANGE:ID="%s",CLASS="com.example.ad",START-DATE="%s",PLANNED-DURATION=18,'
                     'X-CAMPAIGN="spring, one",SCTE35-OUT=%s' % (b, civil(ms), OUT30))
            breaks.append({"id": b, "ads": [
                {"map": {"uri": "https://ads.example/%s/init.mp4" % b},
                 "segments": [{"uri": "https://ads.example/%s/a%d.m4s" % (b, k), "duration": "4.0" + "048"[k]} for k in range(3)]},
                {"map": {"uri": "https://ads.example/%s/b.mp4" % b, "offset": 0, "length": 900},
                 "key": {"method": "AES-128", "uri": "https://ads.example/%s.key" % b, "iv": "0x0123456789abcdef"},
                 "segments": [{"uri": "https://ads.example/%s/b.mp4" % b, "duration": "3.5",
                               "offset": 900 + 700 * k, "length": 700} for k in range(2)]}]})
        if i % 20 == 0:
            k = i // 20
            l.append('#EXT-X-KEY:METHOD=AES-128,URI="keys/m%d.key",IV=0x%032x' % (k, k + 1))
            l.append('#EXT-X-MAP:URI="video/part%d.mp4",BYTERANGE="1180@0"' % (i // 10))
            if k % 2 == 0:
                l.append('#EXT-X-KEY:METHOD=AES-128,URI="keys/k%d.key"' % k)
            else:
                l.append('#EXT-X-KEY:METHOD=AES-128,URI="keys/k%d.key",IV=0x%032x,KEYFORMATVERSIONS="1"' % (k, 99 + k))
        if i and i % 50 == 0:
            l.append("#EXT-X-DISCONTINUITY")
        if i % 25 == 0:
            l.append("#EXT-X-BITRATE:%d" % (4000 + i % 7))
        l.append("#EXT-X-PROGRAM-DATE-TIME:" + civil(ms))
        l.append("#EXTINF:6.000000,news at %d" % (i % 24))
        l.append("#EXT-X-BYTERANGE:%d%s" % (750000 + i % 9, "@1180" if i % 10 == 0 else ""))
        l.append("video/part%d.mp4" % (i // 10))
        ms += 6000
    return l + ["#EXT-X-ENDLIST"], {"breaks": breaks}


def signalled(id, ms, seconds):
    return '#EXT-X-DATERANGE:ID="%s",START-DATE="%s",DURATION=%d,SCTE35-OUT=%s' % (id, civil(ms), seconds, OUT30)


def pod_of_two(id):
    """A break with its pod."""
    return {"id": id, "ads": [{"segments": [
        {"uri": "http://ads.example/%s/a%d.ts" % (id, k), "duration": "9.5"} for k in range(2)]}]}


def filled(n):
    l = ["#EXTM3U", "#EXT-X-VERSION:3", "#EXT-X-TARGETDURATION:10",
         "#EXT-X-PROGRAM-DATE-TIME:2024-05-01T12:00:00Z"]
    breaks = []
    for i in range(n):
        if i % 20 == 5:
            id = "break-%06d" % i
            l.append(signalled(id, i * 10_000, 30))
            if i % 40 == 5:
                breaks.append(pod_of_two(id))
        l += ["#EXTINF:10,", "s%d.ts" % i]
    return l + ["#EXT-X-ENDLIST"], {"breaks": breaks}


# ---- hostile inputs

def many_breaks(at, head):
    """10,000 segments, and 5,000 breaks that start where `at` says."""
    l = ["#EXTM3U", "#EXT-X-VERSION:3", "#EXT-X-TARGETDURATION:10"]
    ids = ["break-%04d" % k for k in range(5000)]
    l += [signalled(id, at(k), 10) for k, id in enumerate(ids)]
    for i in range(10_000):
        l += [*head(i), "#EXTINF:10,", "s%d.ts" % i]
    return l + ["#EXT-X-ENDLIST"], {"breaks": [pod_of_two(id) for id in ids[::20]]}


def spread_breaks():
    start = ["#EXT-X-PROGRAM-DATE-TIME:2024-05-01T12:00:00Z"]
    return many_breaks(lambda k: 20_000 * k, lambda i: start if i == 0 else [])


def one_start():
    # (the pods of the decided breaks don't fit, so that each segment looks at all breaks)
    stated = ["#EXT-X-PROGRAM-DATE-TIME:2024-05-01T12:00:00Z"]
    lines, decided = many_breaks(lambda k: 0, lambda i: stated)
    for it in decided["breaks"]:
        it["ads"][0]["segments"][0]["duration"] = "11"
    return lines, decided


def date_ranges():
    l = ["#EXTM3U", "#EXT-X-TARGETDURATION:10"]
    l += ['#EXT-X-DATERANGE:ID="%05x"' % k for k in range(145_000)]
    l += ["#EXT-X-PROGRAM-DATE-TIME:2024-05-01T12:00:00Z", "#EXTINF:10,", "s0.ts", "#EXT-X-ENDLIST"]
    return l, {"breaks": [pod_of_two("%05x" % k) for k in range(0, 256)]}


def as_large_as_may_be(lines):
    """As many of these lines, each as long as the first, as a playlist of the largest size has room for, with a segment and
    a line more at its end."""
    head = ["#EXTM3U", "#EXT-X-TARGETDURATION:10"]
    tail = ["#EXT-X-PROGRAM-DATE-TIME:2024-05-01T12:00:00Z", "#EXTINF:10,", "s0.ts", "#EXT-X-ENDLIST"]
    room = MAX_BYTES - len(text(head + tail)) - 64
    return head + lines[:room // len(text(lines[:1]))] + tail, None


def dated_ranges():
    return as_large_as_may_be(['#EXT-X-DATERANGE:ID="%05x",START-DATE="2024-05-01T12:00:00Z"' % k for k in range(70_000)])


def empty_lines():
    return as_large_as_may_be([""] * MAX_BYTES)


def many_attributes():
    """10,000 keys of 42 attributes each."""
    l = ["#EXTM3U", "#EXT-X-TARGETDURATION:10"]
    for i in range(10_000):
        others = ",".join("A%d=%04d" % (k, i) for k in range(40))
        l += ['#EXT-X-KEY:METHOD=AES-128,URI="k",' + others, "#EXTINF:10,", "%d" % i]
    return l + ["#EXT-X-ENDLIST"], None


def near_breaks():
    """25,000 breaks that start and end where 10,000 segments of no length begin, and a fallback: each segment is near all
    of them, and too late for each."""
    l = ["#EXTM3U", "#EXT-X-TARGETDURATION:10"]
    l += ['#EXT-X-DATERANGE:ID="%05x",START-DATE="2024-05-01T12:00:00Z",DURATION=0,SCTE35-OUT=%s' % (k, OUT30)
          for k in range(25_000)]
    l += ["#EXT-X-PROGRAM-DATE-TIME:2024-05-01T12:00:00Z"] + ["#EXTINF:0,", "s"] * 10_000
    return l + ["#EXT-X-ENDLIST"], {"fallback": {"ads": pod_of_two("any")["ads"]}}


HOSTILE = (("many-breaks", spread_breaks), ("one-start", one_start), ("near-breaks", near_breaks), ("date-ranges", date_ranges),
           ("dated-ranges", dated_ranges), ("empty-lines", empty_lines), ("many-attributes", many_attributes))


def text(lines):
    return ("\n".join(lines) + "\n").encode()


SHAPES = (("plain", plain), ("break", with_break), ("encrypted", encrypted), ("rich", rich), ("filled", filled))


def write_one(path, lines, dec):
    with open(path + ".m3u8", "wb") as h:
        h.write(text(lines))
    if dec:
        with open(path + ".json", "w") as h:
            json.dump(dec, h)


def write_all(dir, sizes):
    os.makedirs(dir, exist_ok=True)
    for name, f in SHAPES:
        for n in sizes:
            write_one(os.path.join(dir, "%s-%d" % (name, n)), *f(n))
    for name, f in HOSTILE:
        write_one(os.path.join(dir, "hostile-" + name), *f())


if __name__ == "__main__":
    a = sys.argv[1:]
    if not a or a[0].startswith("-"):
        sys.exit(__doc__)
    write_all(a[0], [int(x) for x in a[1:]] or [10, 100, 1000, 10000])
