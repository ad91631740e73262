"""Inputs that grow from seeds: changed, spliced and made longer, and kept as seeds if they are answered in a new way."""
import re

LONGEST = 65_536  # bytes of an input
MOST_SEEDS = 1000
MOST_TIMES = 3000  # that a token is repeated
TOKENS = [b"0", b"-1", b"18446744073709551616", b"9" * 400, b"1e999", b".", b",", b'"', b"'", b"=", b":", b"\n", b"\r", b"\r\n\r\n", b"\0", b"\xff", b"\x1b[2J", b"\xef\xbb\xbf", b" ", b"\t",
          "\u00a0".encode(), "\u2028".encode(), "\u202e".encode(), "\u0130".encode(), b"%00", b"%2e%2e/", b"../", b"//", b"\\", b"@", b"#", b"?", b"{}", b"[", b"]", b"{", b"}", b"http://", b"https://h/",
          b"file:///etc/passwd", b"http://127.0.0.1/", b"127.1", b"0x7f000001", b"[::1]", b"169.254.169.254", b"localhost", b"#EXTM3U\n", b"#EXT-X-", b"#EXTINF:2,\n", b"s.ts\n", b'ID="', b'URI="',
          b"START-DATE=", b"2024-05-01T12:00:00Z", b"9999-12-31T23:59:60+99:99", b"BYTERANGE=", b"DURATION=", b"SCTE35-OUT=0x", b"#EXT-X-DISCONTINUITY\n", b"#EXT-X-KEY:METHOD=NONE\n", b"#EXT-X-MAP:",
          b"#EXT-X-STREAM-INF:BANDWIDTH=1\n", b"#EXT-X-MEDIA:TYPE=AUDIO,", b"null", b"true", b'"breaks":', b'"id":"', b"Content-Length: 5\r\n", b"Transfer-Encoding: chunked\r\n", b"Location: ", b"HTTP/1.1 "]


class Grower:
    """Grows inputs by the source of chance `rng` from `seeds`, which become more."""

    def __init__(self, rng, seeds):
        self.rng, self.seeds, self.seen = rng, list(seeds), set()

    def input(self):
        """The next input: a seed with some changes."""
        found = self.rng.choice(self.seeds)
        for _ in range(self.rng.choice((0, 1, 1, 2, 3, 6))):
            found = self.changed(found)
        return found[:LONGEST]

    def changed(self, it):
        """The input `it` with one change."""
        rng = self.rng
        begin = rng.randrange(len(it) + 1)
        end = min(len(it), begin + rng.choice((0, 1, 1, 2, 8, 40, 400)))
        how = rng.randrange(8)
        if how == 0:
            return it[:begin] + rng.choice(TOKENS) + it[end:]
        if how == 1:
            return it[:begin] + it[end:]
        if how == 2:
            return it[:end] + it[begin:end] * rng.choice((1, 2, 50)) + it[end:]
        if how == 3:
            other = rng.choice(self.seeds)
            return it[:begin] + other[rng.randrange(len(other) + 1):]
        if how == 4:
            token = rng.choice(TOKENS)
            return it[:begin] + token * rng.choice((2, 20, min(MOST_TIMES, LONGEST // len(token)))) + it[begin:]
        if how == 5:
            return it[:begin] + bytes(rng.randrange(256) for _ in range(rng.choice((1, 2, 8)))) + it[end:]
        if how == 6:
            lines = it.split(b"\n")
            rng.shuffle(lines)
            return b"\n".join(lines)
        return re.sub(rb"[0-9]+", lambda _: rng.choice((b"0", b"1", b"65536", b"4294967296", b"18446744073709551615", b"007", b"-0")), it, count=rng.choice((1, 2, 0)))

    def keep(self, it, answer):
        """Keeps the input `it` as a seed if it is answered in a new way."""
        kind = re.sub(r"[0-9]{4,}|(?<=line )[0-9]+|(?<=has )[0-9]+", "0", re.sub(r"'[^']*'|\"[^\"]*\"", "x", answer))[:160]
        if kind not in self.seen:
            self.seen.add(kind)
            if len(self.seeds) < MOST_SEEDS:
                self.seeds.append(it)
