"""Changes of bytes: flipped, cut, doubled, swapped, tokens put in other places, numbers at their limits, long texts.

Each change takes a Random, the bytes, and the words of the text's grammar, and answers the changed bytes.
"""
import re

NUMBER = re.compile(rb"\d+")
NUMBERS = [b"0", b"1", b"-1", b"9", b"10", b"00", b"255", b"256", b"4095", b"4096", b"65535", b"65536", b"999999",
           b"1000000", b"999999.999999999", b"4194304", b"4194305", b"2147483648", b"4294967295", b"4294967296", b"8589934591",
           b"8589934592",
           b"9223372036854775807", b"9223372036854775808", b"18446744073709551614", b"18446744073709551615",
           b"18446744073709551616", b"0.000000001", b".5", b"5.", b".", b"1e9", b"1" * 40, b"0." + b"3" * 40]
BYTES = [b"\x00", b"\t", b"\n", b"\r", b"\r\n", b" ", b'"', b"'", b",", b":", b"=", b"#", b"/", b"\\", b"@", b"\x7f",
         b"\x80", b"\xbf",
         b"\xc3", b"\xc3\xa9", b"\xe2\x80\xa8", b"\xf0\x9f\x8e\xac", b"\xf4\x90\x80\x80", b"\xed\xa0\x80", b"\xff", b"\xef\xbb\xbf"]
LONGEST = 1 << 14  # bytes of a long text

PLAYLIST = [line.encode() for line in """#EXTM3U
#EXT-X-VERSION:3|#EXT-X-VERSION:7|#EXT-X-VERSION:8|#EXT-X-TARGETDURATION:10|#EXT-X-TARGETDURATION:0
#EXT-X-MEDIA-SEQUENCE:0|#EXT-X-MEDIA-SEQUENCE:18446744073709551615|#EXT-X-DISCONTINUITY-SEQUENCE:5
#EXT-X-DISCONTINUITY|#EXT-X-ENDLIST|#EXT-X-PLAYLIST-TYPE:VOD|#EXT-X-PLAYLIST-TYPE:EVENT|#EXT-X-I-FRAMES-ONLY
#EXT-X-INDEPENDENT-SEGMENTS|#EXT-X-START:TIME-OFFSET=1|#EXT-X-STREAM-INF:BANDWIDTH=1|#EXT-X-MEDIA:TYPE=AUDIO
#EXTINF:10,|#EXTINF:9.5,title|#EXTINF:999999.9,|#EXTINF:|#EXT-X-BYTERANGE:10@5|#EXT-X-BYTERANGE:10
#EXT-X-KEY:METHOD=NONE|#EXT-X-KEY:METHOD=AES-128,URI="k"|#EXT-X-KEY:METHOD=SAMPLE-AES,URI="k",KEYFORMAT="x",IV=0x5
#EXT-X-MAP:URI="i.mp4"|#EXT-X-MAP:URI="i.mp4",BYTERANGE="10@0"|#EXT-X-PROGRAM-DATE-TIME:2024-05-01T12:00:00Z
#EXT-X-PROGRAM-DATE-TIME:1899-12-31T23:59:59Z|#EXT-X-PROGRAM-DATE-TIME:2199-12-31T23:59:59.999999999Z
#EXT-X-DATERANGE:ID="b1",START-DATE="2024-05-01T12:00:10Z",DURATION=30
#EXT-X-DATERANGE:ID="b1",END-ON-NEXT=YES
#EXT-X-DATERANGE:ID="b2",SCTE35-OUT=0xFC302000000000000000FFF00F05000000017FFFFE002932E000010000000000000000
# a comment|s0.ts|http://origin.example/ch/s0.ts|//x/|/|?q|../../s|a:b|http://[::1]/|http://%zz/|""".replace("\n", "|").split("|")]
ATTRIBUTES = [it.encode() for it in """ID|CLASS|START-DATE|END-DATE|DURATION|PLANNED-DURATION|END-ON-NEXT|SCTE35-OUT|SCTE35-IN
SCTE35-CMD|METHOD|URI|IV|KEYFORMAT|KEYFORMATVERSIONS|BYTERANGE|X-A|X-B|"b1"|"2024-05-01T12:00:10Z"|"2024-02-30T00:00:00Z"|30|30.5
YES|NONE|AES-128|SAMPLE-AES|"k"|"identity"|"1/2"|0x5|0xffffffffffffffffffffffffffffffff
0x100000000000000000000000000000000
0xFC302000000000000000FFF00F05000000017FFFFE002932E000010000000000000000|"10@5"|"10"|""|","|"a,B=c"|10x20|,|=|,,|=,|" """
              .strip().replace("\n", "|").split("|")]
DECISIONS = [it.encode() for it in """{|}|[|]|,|:|"|null|true|false|0|-0|1e400|1E5|0.1|{"breaks":[]}|{"withdraw":"b1"}|"breaks":
"withdraw":|"id":|"ads":|"segments":|"uri":|"duration":|"map":|"key":|"method":|"iv":|"format":|"offset":|"length":|"b1"|""
"8"|".5"
"1000000"|"http://ads.example/a.ts"|"https://x/"|"ftp://x/"|"http://a b/"|"AES-128"|"NONE"|"0x1F"|"\\u0000"|"\\ud800"
"\\u00e9"|"\\x"
[]|{}|[[[[[[[[|{"a":{"a":{"a":|18446744073709551615|18446744073709551616|"x":1,| """.replace("\n", "|").split("|")]
REQUESTS = [it.encode() for it in r"""GET |PUT |DELETE |HEAD |POST |OPTIONS |CONNECT |get |/channels/a|/channels/a/origin
/channels/a/decisions|/channels/a/live.m3u8|/channels/a/why|/channels/|//|/%61|*|http://h/channels/a/why|?x| HTTP/1.1
 HTTP/1.0| HTTP/2.0
\r\n|\r\n\r\n|\n|\n\n|: |Content-Length: 0\r\n|Content-Length: 5\r\n|Content-Length: 4194304\r\n
Content-Length: 4194305\r\n
Content-Length: 18446744073709551616\r\n|Content-Length: +1\r\n|Content-Length:\r\n|Transfer-Encoding: chunked\r\n
Expect: 100-continue\r\n
Host: h\r\n|Connection: keep-alive\r\n|Upgrade: h2c\r\n| folded\r\n|A: b\r\n|{"base":"http://o.example/"}|{"base":"x"}|{"tolerance":"1"}"""
            .replace("\n", "|").replace("\\r", "\r").replace("\\n", "\n").split("|")]


def place(rng, text):
    return rng.randrange(len(text) + 1)


def run_of(rng, text, most=64):
    """The two ends of a run."""
    begin = place(rng, text)
    return begin, min(len(text), begin + 1 + int(most * rng.random() ** 3))


def flip(rng, text, words):
    if not text:
        return text
    at = rng.randrange(len(text))
    return text[:at] + bytes([text[at] ^ 1 << rng.randrange(8)]) + text[at + 1:]


def put_byte(rng, text, words):
    begin, end = run_of(rng, text, 2)
    return text[:begin] + rng.choice(BYTES) + text[end if rng.random() < 0.5 else begin:]


def cut(rng, text, words):
    begin, end = run_of(rng, text)
    return text[:begin] + text[end:]


def cut_end(rng, text, words):
    return text[:place(rng, text)]


def double(rng, text, words):
    begin, end = run_of(rng, text, 200)
    return text[:end] + text[begin:end] * rng.choice((1, 1, 1, 2, 20)) + text[end:]


def swap(rng, text, words):
    """Two runs change places."""
    a, b, c, d = sorted(place(rng, text) for _ in range(4))
    return text[:a] + text[c:d] + text[b:c] + text[a:b] + text[d:]


def swap_lines(rng, text, words):
    lines = text.split(b"\n")
    a, b = rng.randrange(len(lines)), rng.randrange(len(lines))
    how = rng.randrange(4)
    if how == 0:
        lines[a], lines[b] = lines[b], lines[a]
    elif how == 1:
        lines.insert(a, lines[b])
    elif how == 2:
        del lines[a]
    else:
        lines.insert(a, rng.choice(words))
    return b"\n".join(lines)


def put_word(rng, text, words):
    begin, end = run_of(rng, text)
    return text[:begin] + rng.choice(words) + text[end if rng.random() < 0.3 else begin:]


def number(rng, text, words):
    """A number of the text becomes one at a limit."""
    found = list(NUMBER.finditer(text))
    if not found:
        return put_byte(rng, text, words)
    at = rng.choice(found)
    return text[:at.start()] + rng.choice(NUMBERS) + text[at.end():]


def long_text(rng, text, words):
    """A word or a byte, many times over. Long ones are rare."""
    at, word = place(rng, text), rng.choice(words if rng.random() < 0.3 else BYTES + [b"a", b"0", b"s\n"])
    length = int(LONGEST ** (0.3 + 0.7 * rng.random()))
    return text[:at] + word * (length // max(1, len(word))) + text[at:]


COMMON = (flip, flip, put_byte, put_byte, cut, cut, double, swap, swap_lines, swap_lines, put_word, put_word, number, number)
RARE = (cut_end, long_text)


def changed(rng, text, words):
    """The text with one to four changes."""
    for _ in range(rng.choice((1, 1, 1, 2, 2, 3, 4))):
        change = rng.choice(RARE if rng.random() < 0.05 else COMMON)
        text = change(rng, text, words)
    return text


def joined(rng, text, other):
    """A front of one text, and an end of another."""
    return text[:place(rng, text)] + other[place(rng, other):]
