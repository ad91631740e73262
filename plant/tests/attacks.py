"""A hostile server: what it answers by the first part of the path, and the good list of `/good/..`. And seeds of hostile inputs of each kind,
which `fuzzed.py` grows."""
import gzip
import socket
import threading
import time
import zlib

HEAD = b"#EXTM3U\n#EXT-X-TARGETDURATION:1\n"
ONE = b"#EXTINF:1,\ns0.ts\n"
BIG = 4_190_000  # bytes, a little less than a list may have


def good(begun):
    """A list of five segments that moves on twice a second."""
    number = int((time.monotonic() - begun) * 2)
    return HEAD + b"#EXT-X-MEDIA-SEQUENCE:%d\n" % number + b"".join(b"#EXTINF:0.5,\ns%d.ts\n" % (number + place) for place in range(5))


def packed(layers):
    """Many line feeds in so many layers of gzip."""
    squeeze = zlib.compressobj(9, zlib.DEFLATED, 31)
    data = b"".join(squeeze.compress(b"\n" * (1 << 20)) for _ in range(64)) + squeeze.flush()
    for _ in range(layers - 1):
        data = gzip.compress(data)
    return data


def reply(body, status=b"200 OK", more=b""):
    """An answer with its length."""
    return b"HTTP/1.1 %s\r\nContent-Length: %d\r\nConnection: close\r\n%s\r\n%s" % (status, len(body), more, body)


# Lists that are whole answers.
LISTS = {
    "capitals": HEAD + b"#EXT-X-DATERANGE:" + b"A" * 60_000 + b"\n" + ONE,
    "capitals-4m": HEAD + b"#EXT-X-DATERANGE:" + b"A" * BIG + b"\n" + ONE,
    "quotes": HEAD + b"#EXT-X-DATERANGE:" + b'A="' * 5000 + b"\n" + ONE,
    "letters": HEAD + b"a\n" * (BIG // 2),
    "line-feeds": HEAD + b"\n" * BIG,
    "comments": HEAD + b"#\n" * (BIG // 2),
    "tags": HEAD + b"#EXT-X-A\n" * (BIG // 9),
    "ranges": HEAD + b"".join(b'#EXT-X-DATERANGE:ID="%d"\n' % n for n in range(BIG // 31)) + ONE,
    "one-range": HEAD + b'#EXT-X-DATERANGE:ID="a"\n' * (BIG // 24) + ONE,
    "keys": HEAD + b"".join(b'#EXT-X-KEY:METHOD=AES-128,URI="k",KEYFORMAT="%d"\n' % n for n in range(60_000)) + ONE,
    "discontinuities": HEAD + b"#EXT-X-DISCONTINUITY\n" * (BIG // 21) + ONE,
    "long-id": HEAD + b'#EXT-X-DATERANGE:ID="' + b"a" * 300 + b'"\n' + ONE,
    "target-9": b"#EXTM3U\n#EXT-X-TARGETDURATION:1000000000\n" + ONE,
    "target-12": b"#EXTM3U\n#EXT-X-TARGETDURATION:1000000000000\n" + ONE,
    "target-digits": b"#EXTM3U\n#EXT-X-TARGETDURATION:" + b"9" * 5000 + b"\n" + ONE,
    "digits": HEAD + b"#EXTINF:" + b"9" * 5000 + b",\ns0.ts\n",
    "sequence": HEAD + b"#EXT-X-MEDIA-SEQUENCE:18446744073709551615\n" + ONE * 3,
    "escapes": HEAD + b"#EXTINF:1,\x1b]0;title\x07\x1b[31mred\x1b[0m\n\x1b[2Js0.ts\n",
    "zeros": b"\0" * 100_000,
    "not-utf-8": HEAD + b"\xff\xfe\xe9" * 5000 + b"\n" + ONE,
    "separators": HEAD + "\u2028\x85\x0b".encode() * 3000 + b"\n" + ONE,
}
# Whole answers that are more than a list.
ANSWERS = {name: reply(body) for name, body in LISTS.items()} | {
    "gzip": reply(packed(1), more=b"Content-Encoding: gzip\r\n"), "gzip-gzip": reply(packed(2), more=b"Content-Encoding: gzip, gzip\r\n"),
    "brotli": reply(b"\x1b\xff\xff\xff" * 100, more=b"Content-Encoding: br\r\n"), "deflate": reply(b"x" * 100, more=b"Content-Encoding: deflate\r\n"),
    "cookies": reply(HEAD + ONE, more=b"".join(b"Set-Cookie: c%d=%s; Path=/\r\n" % (n, b"a" * 3900) for n in range(14))),
    "redirect": reply(b"", b"302 Found", b"Location: http://localhost:9/admin\r\n"), "redirect-file": reply(b"", b"302 Found", b"Location: file:///etc/passwd\r\n"),
    "redirect-round": reply(b"", b"302 Found", b"Location: /redirect-round/i.m3u8\r\n"), "redirect-broken": reply(b"", b"302 Found", b"Location: http://[::1\r\n"),
    "garbage": b"\x16\x03\x01\x02\x00\x01" * 1000, "nothing": b"", "old": b"#EXTM3U\n", "length": b"HTTP/1.1 200 OK\r\nContent-Length: -5\r\n\r\n",
    "long": b"HTTP/1.1 200 OK\r\nContent-Length: 99999999999999\r\n\r\n#EXTM3U\n", "two-lengths": b"HTTP/1.1 200 OK\r\nContent-Length: 5\r\nContent-Length: 6\r\n\r\nabcdef",
    "status": b"HTTP/1.1 999 \x1b[31m\r\nContent-Length: 0\r\n\r\n",
}
# Answers without an end: what comes first, what comes again and again, and the seconds between.
ENDLESS = {
    "slow-head": (b"HTTP/1.1 200 OK\r\n", b"X-A: a\r\n", 0.3), "slow-body": (b"HTTP/1.1 200 OK\r\nContent-Length: 100000\r\n\r\n#EXTM3U\n", b"\n", 0.3),
    "fast-head": (b"HTTP/1.1 200 OK\r\n", b"X-A: a\r\n" * 2000, 0), "continue": (b"", b"HTTP/1.1 100 Continue\r\n\r\n" * 500, 0),
    "pieces": (b"HTTP/1.1 200 OK\r\nTransfer-Encoding: chunked\r\n\r\n", b"1\r\n\n\r\n" * 5000, 0),
    "endless": (b"HTTP/1.1 200 OK\r\nTransfer-Encoding: chunked\r\n\r\n", b"4000\r\n" + b"\n" * 16384 + b"\r\n", 0),
    "silent": (b"", b"", 0.5),
}
KINDS = (*ANSWERS, *ENDLESS)

# ---- seeds of what comes to the rim: small inputs, right ones and wrong ones

START, SECTION = b"2024-05-01T12:00:02Z", b"0xFC302000000000000000FFF00F05000000017FFFFE002932E000010000000000000000"
SMALL_LISTS = [
    HEAD + b"#EXT-X-MEDIA-SEQUENCE:7\n#EXT-X-DISCONTINUITY-SEQUENCE:2\n#EXT-X-PROGRAM-DATE-TIME:2024-05-01T12:00:00Z\n" + ONE * 5 + b"#EXT-X-DISCONTINUITY\n" + ONE,
    HEAD + b'#EXT-X-DATERANGE:ID="b1",START-DATE="' + START + b'",DURATION=2,SCTE35-OUT=' + SECTION + b"\n#EXT-X-PROGRAM-DATE-TIME:2024-05-01T12:00:00Z\n" + ONE * 5,
    HEAD + b'#EXT-X-KEY:METHOD=AES-128,URI="k",IV=0x1,KEYFORMAT="identity"\n#EXT-X-MAP:URI="i.mp4",BYTERANGE="20@0"\n#EXT-X-BYTERANGE:5@0\n' + ONE * 3 + b"#EXT-X-ENDLIST\n",
    HEAD + b"#EXT-X-CUE-OUT:2\n" + ONE + b"#EXT-X-CUE-OUT-CONT:1/2\n" + ONE + b"#EXT-X-CUE-IN\n" + ONE, HEAD + b"#EXT-OATCLS-SCTE35:/DAgAAAAAAAAAP/wDwUAAAABf//+ACky4AABAAAAAAAAAAA=\n" + ONE,
    HEAD.replace(b"\n", b"\r\n") + b"#EXT-X-SKIP:SKIPPED-SEGMENTS=3\r\n" + ONE, b"\xef\xbb\xbf" + HEAD + ONE, b"#EXTM3U", b"", b"<html>\n</html>\n",
    *(it for it in LISTS.values() if len(it) < 4000)]
MASTERS = [
    b"#EXTM3U\n#EXT-X-VERSION:6\n#EXT-X-STREAM-INF:BANDWIDTH=1,AUDIO=\"a\"\nv.m3u8\n#EXT-X-MEDIA:TYPE=AUDIO,GROUP-ID=\"a\",NAME=\"x\",URI=\"en/i.m3u8\"\n",
    b"#EXTM3U\n#EXT-X-SESSION-KEY:METHOD=AES-128,URI=\"k\"\n#EXT-X-I-FRAME-STREAM-INF:BANDWIDTH=1,URI=\"f\"\n#EXT-X-STREAM-INF:BANDWIDTH=2\n../hd/i.m3u8?t=1\n",
    *(b"#EXTM3U\n#EXT-X-STREAM-INF:BANDWIDTH=1\n%s\n" % it for it in (
        b"v.m3u8 /etc/passwd", "v.m3u8\u00a0/etc/passwd".encode(), b"http://127.1:8090/v.m3u8", b"//0x7f000001/v", b"http://[::1]/", b"http://u:p@origin.example@h/", b"file:///etc/passwd",
        b"http://origin.example:80/v", b"http:/\\h/v", b"http://origin.example%2f@h/", b"\\\\h\\v", b"a/../../v", b"%2e%2e/v", b"/etc/passwd", b"?", b"#EXT", b"http://[", b"http://..[../v", b"https:v"))]
REDIRECTS = [b"/i.m3u8", b"i.m3u8?x=1", b"//127.0.0.1:PORT/", b"http://127.0.0.1:PORT/", b"http://localhost:PORT/", b"http://127.1:PORT/", b"http://0:PORT/", b"http://[::ffff:127.0.0.1]:PORT/",
             b"http://2130706433:PORT/", b"http://0x7f.1:PORT/", b"http://127.0.0.1:80@127.0.0.1:PORT/", b"http://127.0.0.1:PORT\\@h/", b"HTTP://127.0.0.1:PORT/%00", b"file:///etc/passwd",
             b"http:127.0.0.1:PORT/", b"http:///127.0.0.1:PORT/", b"http://127.0.0.1:PORT#@h/", b"http://127.0.0.1:99999/", b"\x00", b"", "http://１２７.0.0.1:PORT/".encode(), b"/\\127.0.0.1:PORT/"]
HEADERS = [b"HTTP/1.1 200 OK\r\nContent-Length: 8\r\n\r\n#EXTM3U\n", b"HTTP/1.1 200 OK\r\nTransfer-Encoding: chunked\r\n\r\n8\r\n#EXTM3U\n\r\n0\r\n\r\n", b"HTTP/1.0 200 OK\r\n\r\n#EXTM3U\n",
           b"HTTP/1.1 304 Not Modified\r\nETag: \"a\"\r\n\r\n", b"HTTP/1.1 100 Continue\r\n\r\nHTTP/1.1 200 OK\r\nContent-Length: 1\r\nETag: W/\"a\"\r\nLast-Modified: x\r\n\r\na",
           b"HTTP/1.1 302 Found\r\nLocation: http://localhost:9/\r\nContent-Length: 0\r\n\r\n", *(it for it in ANSWERS.values() if len(it) < 2000)]
REQUESTS = [b"PUT /decisions/news/a.json HTTP/1.1\r\nHost: h\r\nContent-Length: 17\r\n\r\n{\"fallback\":null}", b"DELETE /decisions/news/a.json HTTP/1.1\r\n\r\n", b"GET / HTTP/1.1\r\n\r\n",
            b"PUT /decisions/news/..%2fa.json HTTP/1.1\r\nContent-Length: 2\r\n\r\n{}", b"PUT /decisions/news/a.json HTTP/1.1\r\nTransfer-Encoding: chunked\r\n\r\n2\r\n{}\r\n0\r\n\r\n",
            b"PUT //decisions/news/a.json HTTP/1.0\r\nContent-Length: 17\r\nOrigin: http://h\r\n\r\n{\"fallback\":null}", b"\x16\x03\x01", b"PUT\r\n\r\n"]
DECISIONS = [b'{"breaks":[{"id":"b1","ads":[{"segments":[{"uri":"http://h/a.ts","duration":"2"}]}]}]}', b'{"fallback":{"ads":[{"segments":[{"uri":"//h/a","duration":".5","offset":0,"length":5}]}]}}',
             b'{"withdraw":"b1"}', b'{"fallback":null}', b"[[[[]]]]", b'{"breaks":[{"id":"b1","ads":[{"map":{"uri":"http://h/i"},"key":{"method":"NONE"},"segments":[]}]}]}', b"", b"null", b'"\\ud800"']
NAMES = [b"a.json", b"a", b".a.json", b".json", b"a\nb.json", b"\xff\xfe.json", b"a b.json", "é\u2028.json".encode(), b"done", b"asked", b"a" * 250 + b".json", b"-a.json", b"%2e.json", b"\x1b[2J.json"]
FILE_KINDS = ("file", "decision", "folder", "pipe", "link", "loop", "outside", "device", "socket", "long", "secret")
SETTINGS = [
    b"[DEFAULT]\nat = http://127.0.0.1:8090\nkeep = FOLDER/kept\n[news]\norigin = http://h/i.m3u8 http://b/i.m3u8\ndecisions = FOLDER/d\ntolerance = 0.2\nnetworks = 10.0.0.0/8\n",
    b"[film]\nat = http://h\norigin = http://h/m.m3u8\nmaster = FOLDER/film.m3u8\nrenditions = 1 2\ndecisions = FOLDER/{}\n[film-1]\nat = http://h\norigin = FOLDER/i.m3u8\nbase = http://h/\n",
    b"[sport]\nat = http://h\nrenditions = a b\norigin = http://h/{}.m3u8\ndecisions = FOLDER/d/{}\nask = folder\nhold = 1\nsignals = 0x34\ntarget = 6\nline = 300\nredirects = yes\n", b"[", b"a", b"[a]\nat\n",
    b"[news]\nat = http://..[..\norigin = http://h/i.m3u8\nbase = http://h/\nstore = etcd://..[.. a\nask = http://[v1]/\n"]


class Hostile:
    """The server; `asked` has the moment, the path and the head's size of each request."""

    def __init__(self):
        self.begun, self.asked, self.lock = time.monotonic(), [], threading.Lock()
        self.socket = socket.create_server(("127.0.0.1", 0), backlog=200)
        self.port = self.socket.getsockname()[1]
        threading.Thread(target=self.accept, daemon=True).start()

    def accept(self):
        """Answers each connection in a thread of its own."""
        while True:
            try:
                it, _ = self.socket.accept()
            except OSError:
                return
            threading.Thread(target=self.serve, args=(it,), daemon=True).start()

    def serve(self, it):
        """Answers one request."""
        with it:
            try:
                head = b""
                while b"\r\n\r\n" not in head:
                    if not (data := it.recv(65536)):
                        return
                    head += data
                path = head.split(b" ")[1].decode()
                with self.lock:
                    self.asked.append((time.monotonic(), path, len(head)))
                kind = path.split("/")[1]
                if kind in ENDLESS:
                    self.go_on(it, *ENDLESS[kind])
                else:
                    it.sendall(reply(good(self.begun)) if kind == "good" else ANSWERS[kind])
            except OSError:
                return

    @staticmethod
    def go_on(it, first, again, pause):
        """Sends without an end."""
        it.sendall(first)
        while True:
            if again:
                it.sendall(again)
            elif it.recv(1) == b"":
                return
            time.sleep(pause)

    def times(self, path):
        """When a path was asked for."""
        with self.lock:
            return [moment for moment, asked, _ in self.asked if asked.startswith(path)]

    def close(self):
        """Ends it."""
        self.socket.close()
