"""A live server with 64 channels for long: packagers, ad decision servers, readers and rude clients at once, beside a second
server that gets the good requests alone, in the same order for each channel."""
import random
import statistics
import threading
import time
from collections import Counter

from servers import BODY, Server, get, is_sent, program_of, put, read_all, reset
from playlists import daterange, decisions, instant, origin_text

CHANNELS = 64
PACKAGERS, READERS, FLOODERS = 8, 8, 2  # threads
USUAL_SECONDS = 600
DEADLINE = 10  # seconds that a rude client may hold its place
SLOWEST = 1  # seconds of a good request, which waits for no rude one
PAUSE = 20  # seconds from one client that holds its place to the next
LINGERERS = 3  # clients at once that are refused and don't close
GROWTH = 512 << 10  # bytes by which resident memory may be above that of the first minute
EVERY, RUN = 20, 3  # segments from break to break, and within one
PODS = (["a0", "a1"], ["x0"], ["a0", "a1", "x0"])


class Both:
    """The server with all clients, and the one with the good ones alone."""

    def __init__(self, program):
        self.crowded, self.quiet = Server(program), Server(program)
        self.turns = [threading.Lock() for _ in range(CHANNELS)]
        self.lock, self.times, self.wrong, self.count = threading.Lock(), [], [], Counter()

    def ask(self, channel, request):
        """A good request to both, whose replies have to be the same."""
        with self.turns[channel]:
            found, took = self.crowded.timed(request)
            owed = self.quiet.ask(request)
        with self.lock:
            self.times.append(took)
            self.count[request.split(b" ")[0].decode() + " " + owed[9:12].decode()] += 1
            if found != owed or not owed:
                self.wrong.append((request[:80], found[:200], owed[:200]))


class Stream:
    """What a channel's packager and ad decision server send: a window that moves on, and breaks that are decided, decided
    again, or withdrawn before they begin."""

    def __init__(self, channel):
        self.rng, self.route = random.Random(channel), b"/channels/c%d" % channel
        self.length = self.rng.randrange(4, 40)  # of the window
        self.first, self.decided = 0, -1

    def begin(self):
        self.first, self.decided = 0, -1
        yield put(self.route, BODY)

    def listed(self):
        """The breaks that stand in the playlist: those in the window, and the next one."""
        last = self.first + self.length
        return [place for place in range(last // EVERY + 2)
                if place * EVERY + 10 + RUN >= self.first and place * EVERY + 10 < last + EVERY]

    def window(self, first):
        ranges = [daterange(f"break {place}", 10 * (place * EVERY + 10)) for place in self.listed()]
        last = first + self.length - 1
        return put(self.route + b"/origin", origin_text(first, last, ranges=ranges, times={first: instant(10 * first)}).encode())

    def file(self, body):
        return put(self.route + b"/decisions", body.encode())

    def decide(self):
        """Decides what is listed and new; some are given up again, or decided anew."""
        for place in self.listed():
            if place > self.decided:
                self.decided = place
                yield self.file(decisions((f"break {place}", PODS[place % 3])))
                if self.rng.random() < 0.2:
                    yield self.file('{"withdraw":"break %d"}' % place)
                elif self.rng.random() < 0.2:
                    yield self.file(decisions((f"break {place}", self.rng.choice(PODS))))

    def requests(self):
        """One step of the channel."""
        if self.rng.random() < 0.002:
            yield b"DELETE %s HTTP/1.1\r\n\r\n" % self.route
            yield from self.begin()
        yield from self.decide()
        yield self.window(self.first)
        if self.rng.random() < 0.05:
            yield self.window(max(0, self.first - self.rng.randrange(3)))  # one that lags, or repeats itself
        self.first += 1
        yield get(self.route + b"/live.m3u8")
        if self.rng.random() < 0.2:
            yield get(self.route + b"/why")


# ---- good clients

def packager(both, own, until):
    streams = {channel: Stream(channel) for channel in own}
    for channel, stream in streams.items():
        for request in stream.begin():
            both.ask(channel, request)
    while time.monotonic() < until:
        for channel, stream in streams.items():
            for request in stream.requests():
                both.ask(channel, request)
            time.sleep(0.01)


def reader(both, seed, until):
    rng = random.Random(seed)
    while time.monotonic() < until:
        channel = rng.randrange(CHANNELS)
        both.ask(channel, get(b"/channels/c%d/%s" % (channel, rng.choice((b"live.m3u8", b"live.m3u8", b"why")))))
        time.sleep(0.005)


# ---- rude clients; each answers what it did

def stays_silent(server, rng):
    with server.connect() as it:
        read_all(it)
    return "silent"


def sends_half(server, rng):
    text = rng.choice((b"PUT /channels/c1/orig", b"GET /channels/c1/why HTTP/1.1\r\nHost:",
                       b"PUT /channels/c1/origin HTTP/1.1\r\nContent-Length: 4194304\r\n\r\n#EXTM3U\n"))
    with server.connect() as it:
        is_sent(it, text)
        read_all(it)
    return "half a request"


def sends_slowly(server, rng):
    with server.connect() as it:
        for byte in b"GET /channels/c1/why HTTP/1.1\r\n" + b"A: b\r\n" * 60:
            if not is_sent(it, bytes([byte])):
                break
            time.sleep(0.1)
        read_all(it)
    return "a byte at a time"


def linger(server, rng):
    """Clients that don't close behind their replies, one that is served and others that are refused."""
    held = [server.connect() for _ in range(LINGERERS + 1)]
    for place, it in enumerate(held):
        is_sent(it, get(b"/channels/nobody/why" if place else b"/channels/c2/why"))
    time.sleep(1)
    for it in held:
        it.close()
    return "lingering"


def goes_away(server, rng):
    it = server.connect()
    half = put(b"/channels/c3/origin", b"x" * 100_000)[:50_000]
    is_sent(it, rng.choice((b"", b"GET /cha", get(b"/channels/c3/live.m3u8"), half)))
    reset(it)
    return "reset"


# (each is refused at once: empty lines alone would be the front of a request, and hold the server)
BAD = (b"\r\n\r\nGET\r\n\r\n", b"GET / HTTP/9.9\r\n\r\n", b"\x16\x03\x01\x02\x00" + bytes(300), b"PUT /channels/c4/origin HTTP/1.1\r\n\r\n",
       b"GET /" + b"a" * 20_000, b"GET /channels/nobody/live.m3u8 HTTP/1.1\r\n\r\n", b"A: b\r\n" * 100 + b"\r\n",
       put(b"/channels/c4", b"x"), put(b"/channels/C4", BODY), put(b"/channels/c4/origin", b"#EXTM3U\n" + b"\n" * 50_000),
       put(b"/channels/c4/origin", b"#EXTM3U\n#EXT-X-TARGETDURATION:10\ns.ts\n"),
       put(b"/channels/c4/decisions", b"[" * 50_000), b"POST /channels/c4/why HTTP/1.1\r\nTransfer-Encoding: chunked\r\n\r\n")


HOLDERS = (stays_silent, linger, sends_half, sends_slowly)


def asks_badly(server, rng):
    """A request that is refused, whatever the channel was given."""
    server.ask(rng.choice(BAD))
    return "bad request"


def holders(server, done, until):
    """Clients that hold the server, in turns with a pause between them: the times that they hold it for add up."""
    rng, turn = random.Random(1), 0
    while time.monotonic() < until - DEADLINE - PAUSE / 2:
        done[HOLDERS[turn % len(HOLDERS)](server, rng)] += 1
        turn += 1
        time.sleep(PAUSE)


def flooder(server, done, until, seed):
    rng = random.Random(seed)
    while time.monotonic() < until:
        done[rng.choice((goes_away, asks_badly, asks_badly))(server, rng)] += 1
        time.sleep(0.01)


# ---- the run

def watch(server, memory, until):
    begun = time.monotonic()
    while time.monotonic() < until:
        memory.append((time.monotonic() - begun, server.memory()))
        time.sleep(1)


def run(both, seconds):
    """All clients at once; what the rude ones did, and the memory second by second."""
    until, done, memory, failed = time.monotonic() + seconds, Counter(), [], []
    jobs = [(packager, both, range(place, CHANNELS, PACKAGERS), until) for place in range(PACKAGERS)]
    jobs += [(reader, both, place, until) for place in range(READERS)]
    jobs += [(flooder, both.crowded, done, until, place) for place in range(FLOODERS)]
    jobs += [(holders, both.crowded, done, until), (watch, both.crowded, memory, until)]

    def work(job):
        try:
            job[0](*job[1:])
        except Exception as e:
            failed.append(f"{job[0].__name__}: {type(e).__name__}: {e}")

    threads = [threading.Thread(target=work, args=(job,)) for job in jobs]
    for it in threads:
        it.start()
    for it in threads:
        it.join()
    return done, memory, failed


def mean_memory(memory, begin, end):
    return statistics.mean(held for second, held in memory if begin <= second <= end)


def checks(both, done, memory, failed, seconds):
    times = sorted(both.times)
    first = min(60, seconds / 3)
    early, late = mean_memory(memory, first - 5, first + 5), mean_memory(memory, seconds - 10, seconds)
    print(f"{len(times)} good requests: {dict(both.count)}")
    print(f"rude clients: {dict(done)}; standard error: {dict(Counter(both.crowded.told()))}")
    print(f"a good request took {statistics.median(times) * 1000:.2f} ms at the median, "
          f"{times[len(times) * 99 // 100] * 1000:.1f} ms at the 99th of a hundred, {times[-1]:.2f} s at most")
    print(f"resident memory: {early / 1024:.0f} KiB about second {first:.0f}, {late / 1024:.0f} KiB at the end")
    for request, found, owed in both.wrong[:10]:
        print(f"{request!r}: {found!r}, owed {owed!r}")
    for each in failed:
        print(each)
    yield "each client came to its end", not failed
    yield "both servers run", both.crowded.is_running() and both.quiet.is_running()
    yield f"no good request took longer than {SLOWEST} s", times[-1] <= SLOWEST
    yield "no memory is kept", late <= early + GROWTH
    yield "standard error names faults alone", {*both.crowded.told()} <= {"E1 Read", "E2 Write", "E4 Ended"}
    yield "the second server tells no fault", not both.quiet.told()


def main(folder, seconds=USUAL_SECONDS):
    seconds = int(seconds)
    both = Both(program_of(folder))
    try:
        done, memory, failed = run(both, seconds)
        for channel in range(CHANNELS):
            for what in (b"live.m3u8", b"why"):
                both.ask(channel, get(b"/channels/c%d/%s" % (channel, what)))
        asked = list(checks(both, done, memory, failed, seconds))
    finally:
        both.crowded.stop()
        both.quiet.stop()
    bad = [name for name, is_well in asked if not is_well]
    for name in bad:
        print(f"not so: {name}")
    wrong, right = len(both.wrong), len(both.times) - len(both.wrong)
    print(f"soak live: {right + len(asked) - len(bad)} passed, {wrong + len(bad)} failed")
    return 1 if wrong or bad else 0
