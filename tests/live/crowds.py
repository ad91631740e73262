#!/usr/bin/env python3
"""Crowds of clients that hold what they can, and beside each a good client: how long it waits at the most is printed and
bounded. tests/run_live runs these one after the other.

  tests/live/crowds.py PORT PATH     the good client: it reads PATH again and again until its standard input ends, and prints
                                     as JSON how often, how many other replies than the first it got, how many requests
                                     were sent late and given up, and the longest time
"""
import json
import os
import resource
import socket
import struct
import subprocess
import sys
import threading
import time

import costs

MAX_SECONDS = 1.0  # that a good client waits, on a busy machine
MAX_BEHIND_PUSHES = 0.1  # and a viewer beside clients that push, at the best of three tries
MAX_BEHIND_OTHERS = 16  # so many times as long as one request of another channel takes: a push beside 128 clients that ask such
MAX_FOR_PODS = 1.6  # so many times the processor time that `why` takes with pods of one segment it takes with pods of 500
LEAST_LARGE = 20  # bodies of 4 MiB that are answered in five seconds, if 64 clients send such without a pause
# Seconds until a request was sent. A client that the machine holds up for longer is silent meanwhile: if no place is left, the
# server gives it up for those that came after it, without a reply.
LATE = 0.001
WHY = b"/channels/a/why"
LIVE = b"/channels/a/live.m3u8"
EVERYBODY = "4294967295"


def reply_to_get(port, path):
    """What is answered, and the seconds until the request was sent."""
    begun = time.monotonic()
    with socket.create_connection(("127.0.0.1", port), 60) as it:
        it.sendall(b"GET %s HTTP/1.1\r\n\r\n" % path)
        sent, found = time.monotonic() - begun, b""
        while some := it.recv(1 << 16):
            found += some
        return found, sent


def be_good(port, path):
    ended = threading.Event()
    threading.Thread(target=lambda: (sys.stdin.read(), ended.set()), daemon=True).start()
    first, count, others, late, longest = None, 0, 0, 0, 0.0
    while not ended.is_set():
        begun = time.monotonic()
        try:
            found, sent = reply_to_get(port, path)
        except OSError:
            found, sent = b"(no reply)", 0.0
        longest = max(longest, time.monotonic() - begun)
        if not found and sent > LATE:
            late += 1
            continue
        first = found if first is None else first
        count, others = count + 1, others + (found != first or not found.startswith(b"HTTP/1.1 200 OK\r\n"))
    print(json.dumps({"count": count, "others": others, "late": late, "longest": longest}))


class Beside:
    """A good client, as a process of its own, for as long as the block takes and half a second at least."""

    def __init__(self, server, path=WHY):
        self.words = [sys.executable, os.path.abspath(__file__), str(server.port), path.decode()]

    def __enter__(self):
        self.begun = time.monotonic()
        self.running = subprocess.Popen(self.words, stdin=subprocess.PIPE, stdout=subprocess.PIPE)
        time.sleep(0.2)
        return self

    def __exit__(self, *_):
        time.sleep(max(0.0, 0.7 - (time.monotonic() - self.begun)))
        said = json.loads(self.running.communicate(timeout=60)[0])
        self.count, self.others, self.late, self.longest = said["count"], said["others"], said["late"], said["longest"]

    def differences(self, crowd):
        """What is wrong with what it got. Prints how long it waited."""
        held_up = f"; {self.late} that the machine held up for over {LATE} s before they were sent were given up" if self.late else ""
        print(f"beside {crowd}: {self.count} good requests, the longest {self.longest:.3f} s{held_up}")
        found = [f"{self.others} of {self.count} good requests had another reply"] if self.others or not self.count else []
        return found + ([f"a good client waited {self.longest:.3f} s"] if self.longest > MAX_SECONDS else [])


def connected(server, count):
    return [server.connect() for _ in range(count)]


def is_sent(it, text):
    try:
        it.sendall(text)
    except OSError:
        pass  # (it was given up)


def reset(it):
    it.setsockopt(socket.SOL_SOCKET, socket.SO_LINGER, struct.pack("ii", 1, 0))
    it.close()


# ---- the crowds: each does its worst to a server, and leaves what it holds open until the good client was measured


def silent(server):
    return connected(server, 600)


def byte_at_a_time(server):
    them = connected(server, 200)
    for byte in b"GET /channels/a/why HTTP/1.1\r\nA: ":
        for it in them:
            is_sent(it, bytes([byte]))
    return them


def reading_nothing(server):
    them = []
    for _ in range(100):
        it = server.connect()
        it.setsockopt(socket.SOL_SOCKET, socket.SO_RCVBUF, 4096)
        is_sent(it, b"GET /channels/large/live.m3u8 HTTP/1.1\r\n\r\n")
        them.append(it)
    return them


def resetting(server):
    put = b"PUT /channels/b HTTP/1.1\r\nContent-Length: 46\r\n\r\n"
    for said in (b"", b"P", put[:20], put, put + b'{"base":', b"GET /channels/a/why HTTP/1.1\r\n\r\n",
                 b"GET /channels/large/live.m3u8 HTTP/1.1\r\n\r\n"):
        for _ in range(50):
            it = server.connect()
            is_sent(it, said)
            reset(it)
    it = server.connect()  # amid a reply
    is_sent(it, b"GET /channels/large/live.m3u8 HTTP/1.1\r\n\r\n")
    it.recv(1000)
    reset(it)
    return []


def flooding(server):
    for _ in range(20_000):
        it = socket.create_connection(("127.0.0.1", server.port), 60)
        reset(it)
    return []


def large_bodies(server):
    """40 bodies of which a byte is missing, 160 MiB together."""
    body = b"PUT /channels/a/origin HTTP/1.1\r\nContent-Length: 4194304\r\n\r\n" + b"x" * 4_194_303
    them = connected(server, 40)
    for it in them:
        it.settimeout(5)
        is_sent(it, body)
    return them


def asking(server, count, request, seconds=1.0):
    """So many clients, which ask this again and again."""
    end = time.monotonic() + seconds

    def again():
        while time.monotonic() < end:
            try:
                server.ask(request)
            except OSError:
                pass  # (it was given up)

    them = [threading.Thread(target=again, daemon=True) for _ in range(count)]
    for it in them:
        it.start()
    for it in them:
        it.join()


# It is refused, as its version is another one than that of the channel's list.
SMALL = b"#EXTM3U\n#EXT-X-VERSION:7\n#EXT-X-TARGETDURATION:10\n#EXT-X-MEDIA-SEQUENCE:9999\n#EXTINF:10,\nx\n"
PUSH = b"PUT /channels/large/origin HTTP/1.1\r\nContent-Length: %d\r\n\r\n%s" % (len(SMALL), SMALL)
REASONS = b"GET /channels/ranges/why HTTP/1.1\r\n\r\n"
PUSHES = {"128 that push small texts": (128, PUSH), "32 that ask why of 24,000 breaks": (32, REASONS)}

CROWDS = {"600 silent clients": silent, "200 that send a byte at a time": byte_at_a_time,
          "100 that read nothing of 4 MB": reading_nothing, "351 that reset at each stage": resetting,
          "a flood of 20,000": flooding, "40 bodies of 4 MiB less a byte": large_bodies}
MAX_MEMORY = 192 << 20
UNREAD_TEXTS, UNREAD_SEGMENTS = 40, 2_000  # texts of 8 MB, of which each has a reader that reads nothing
MAX_UNREAD_PEAK = 192 << 20  # 64 MiB of them, and the channels' own


def begun(run_live, program, **given):
    server = run_live.Server(program, EVERYBODY, **given)
    made = server.put(b"/channels/a", run_live.BASE), server.put(b"/channels/large", run_live.BASE)
    window = b"#EXTM3U\n#EXT-X-TARGETDURATION:10\n" + b"".join(b"#EXTINF:10,\n%s%d.ts\n" % (b"x" * 390, i) for i in range(10_000))
    if made != (run_live.CREATED, run_live.CREATED) or server.put(b"/channels/large/origin", window) != run_live.NO_CONTENT:
        raise OSError("the server didn't take its channels")
    return server


def ranges_given(run_live, server):
    """Gives a channel 24,000 breaks, of which each `why` tells, and another channel a list. Whether they were taken."""
    list_of_one = b"#EXTM3U\n#EXT-X-TARGETDURATION:10\n#EXTINF:10,\na.ts\n"
    tags = b"".join(b'#EXT-X-DATERANGE:ID="%05d",START-DATE="2024-05-01T12:00:00Z"\n' % number for number in range(24_000))
    made = [server.put(b"/channels/ranges", run_live.BASE), server.put(b"/channels/a/origin", list_of_one),
            server.put(b"/channels/ranges/origin", list_of_one.replace(b"#EXTINF", tags + b"#EXTINF"))]
    return made == [run_live.CREATED, run_live.NO_CONTENT, run_live.NO_CONTENT]


def behind_pushes(run_live, program, name):
    """How long a viewer's read of a list waits beside these."""
    server = begun(run_live, program, stderr=subprocess.DEVNULL)
    try:
        if not ranges_given(run_live, server):
            return ["the server didn't take its lists"]
        for _ in range(3):
            with Beside(server, LIVE) as good:
                asking(server, *PUSHES[name])
            found = good.differences(name)
            if found or good.longest <= MAX_BEHIND_PUSHES:
                return found
        return [f"a viewer waited {good.longest:.3f} s"]
    finally:
        server.stop()


def push_beside_another_channel(run_live, program):
    """How long a push waits beside 128 clients that ask another channel: for one of their requests, and not for all."""
    server = begun(run_live, program, stderr=subprocess.DEVNULL)
    try:
        if not ranges_given(run_live, server):
            return ["the server didn't take its lists"]
        begun_at = time.monotonic()
        server.ask(REASONS)
        most = MAX_BEHIND_OTHERS * (time.monotonic() - begun_at)
        for _ in range(3):
            crowd = threading.Thread(target=asking, args=(server, 128, REASONS, 4.0), daemon=True)
            crowd.start()
            time.sleep(1.0)  # (all of them ask by now)
            longest = 0.0
            for _ in range(10):
                begun_at = time.monotonic()
                answer = server.ask(PUSH.replace(b"large", b"a"))
                longest = max(longest, time.monotonic() - begun_at)
                if not answer.startswith(b"HTTP/1.1 409 "):
                    return [f"a push beside others was answered {answer[:80]!r}"]
            crowd.join()
            print(f"a push beside 128 that ask another channel: the longest {longest:.3f} s, of {most:.3f} s")
            if longest <= most:
                return []
        return [f"a push waited {longest:.3f} s for another channel's requests"]
    finally:
        server.stop()


def large_bodies_end(run_live, program):
    """Of 64 clients that send bodies of 4 MiB without a pause, which have no room together, some come to their end all the time.
    And a push of 1 MB beside them is answered."""
    server = begun(run_live, program, stderr=subprocess.DEVNULL)
    try:
        body = b"#EXTM3U\n#EXT-X-VERSION:7\n" + b"#" * (4_194_304 - 26)
        large = b"PUT /channels/large/origin HTTP/1.1\r\nContent-Length: %d\r\n\r\n%s" % (len(body), body)
        middle = b"PUT /channels/a/origin HTTP/1.1\r\nContent-Length: 1000000\r\n\r\n" + body[:1_000_000]
        answered, end = [], time.monotonic() + 5.0

        def again():
            while time.monotonic() < end:
                try:
                    answered.append(server.ask(large)[:12])
                except OSError:
                    pass  # (it was given up)

        them = [threading.Thread(target=again, daemon=True) for _ in range(64)]
        for it in them:
            it.start()
        time.sleep(1.0)
        try:
            good = server.ask(middle)[:12]
        except OSError:
            good = b""
        for it in them:
            it.join()
        count = sum(it.startswith(b"HTTP/1.1 4") for it in answered)
        print(f"64 clients that send 4 MiB without a pause: {count} were answered; a push of 1 MB: {good!r}")
        found = [f"{count} of their bodies were answered"] if count < LEAST_LARGE else []
        return found if good.startswith(b"HTTP/1.1 422") else [*found, f"a push of 1 MB was answered {good!r}"]
    finally:
        server.stop()


def why_under(server, breaks, fallback):
    """The processor seconds of 20 reads of `why` of a new channel, all of whose breaks this fallback fills."""
    said = [server.put(b"/channels/why", b'{"base":"http://origin.example/ch/index.m3u8"}'),
            server.put(b"/channels/why/decisions", fallback), server.put(b"/channels/why/origin", breaks)]
    if not all(it.startswith((b"HTTP/1.1 201", b"HTTP/1.1 204")) for it in said):
        raise OSError(f"the server didn't take its breaks: {said}"[:200])
    before = server.processor_seconds()
    for _ in range(20):
        server.ask(b"GET /channels/why/why HTTP/1.1\r\n\r\n")
    taken = server.processor_seconds() - before
    server.ask(b"DELETE /channels/why HTTP/1.1\r\n\r\n")
    return taken


def why_of_long_pods(run_live, program):
    """`why` looks at the pod of each break, and not at the pod's segments."""
    server = begun(run_live, program, stderr=subprocess.DEVNULL)
    try:
        breaks = costs.ended_breaks(15_000)
        short, long = (min(why_under(server, breaks, costs.fallback(count)) for _ in range(3)) for count in (1, 500))
        print(f"20 times why of 15,000 breaks: {short:.2f} s of a processor with pods of one segment, {long:.2f} s with pods of 500")
        return [] if long <= MAX_FOR_PODS * short + 0.05 else [f"why takes {long:.2f} s under pods of 500, and {short:.2f} s under pods of one"]
    finally:
        server.stop()


def long_text(first):
    """A playlist of short URIs, from the segment `first` on: under a base of 4 KB it is written as 8 MB."""
    segments = b"".join(b"#EXTINF:10,\n%d.ts\n" % number for number in range(first, first + UNREAD_SEGMENTS))
    return b"#EXTM3U\n#EXT-X-TARGETDURATION:10\n#EXT-X-MEDIA-SEQUENCE:%d\n" % first + segments


def unread_texts(run_live, program):
    """Texts that only their readers hold take 64 MiB at most: who took bytes longest ago is disconnected, and the newest one isn't."""
    server = begun(run_live, program, stderr=subprocess.DEVNULL)
    try:
        base = b'{"base":"http://origin.example/%s/index.m3u8"}' % (b"b" * 4_000)
        said, readers = [server.put(b"/channels/texts", base)], []
        for first in range(UNREAD_TEXTS):
            said.append(server.put(b"/channels/texts/origin", long_text(first)))
            readers.append(server.connect())
            is_sent(readers[-1], b"GET /channels/texts/live.m3u8 HTTP/1.1\r\n\r\n")
            time.sleep(0.02)
        with Beside(server) as good:
            peak = costs.peak_bytes(server.running.pid)
        found = good.differences(f"{UNREAD_TEXTS} texts of 8 MB that nobody reads")
        found += [f"the server didn't take its lists: {said}"[:200]] if said != [run_live.CREATED] + [run_live.NO_CONTENT] * UNREAD_TEXTS else []
        found += [f"the server had {peak >> 20} MiB"] if peak > MAX_UNREAD_PEAK else []
        oldest, newest = (len(run_live.read_all(it)) for it in (readers[0], readers[-1]))
        print(f"{UNREAD_TEXTS} texts of 8 MB that nobody reads: {peak >> 20} MiB; of the oldest {oldest:,} bytes came, of the newest {newest:,}")
        found += ["the oldest reader wasn't disconnected"] if oldest > 8_000_000 else []
        return found + (["the newest reader was disconnected"] if newest < 8_000_000 else [])
    finally:
        server.stop()


def beside(run_live, program, name):
    server = begun(run_live, program, stderr=subprocess.DEVNULL)
    try:
        with Beside(server) as good:
            them = CROWDS[name](server)
        found = good.differences(name)
        memory = server.memory()
        if memory > MAX_MEMORY:
            found.append(f"the server has {memory >> 20} MiB")
        for it in them:
            it.close()
        return found
    finally:
        server.stop()


def no_files(run_live, program):
    """A server that may have 40 files open, and 100 clients that say nothing."""
    server = begun(run_live, program, stderr=subprocess.DEVNULL, limit=lambda: resource.setrlimit(resource.RLIMIT_NOFILE, (40, 40)))
    try:
        with Beside(server) as good:
            them = connected(server, 100)
        found = good.differences("100 silent clients where 40 files may be open")
        for it in them:
            it.close()
        return found
    finally:
        server.stop()


def unread_faults(run_live, program):
    """12,000 faults on a standard error that nobody reads, which has room for fewer, and the server goes on."""
    server = begun(run_live, program)
    try:
        with Beside(server) as good:
            for _ in range(12_000):
                it = socket.create_connection(("127.0.0.1", server.port), 60)
                is_sent(it, b"GET")
                it.close()
        return good.differences("12,000 faults that nobody reads")
    finally:
        server.stop()


def cases(run_live, program):
    """The crowds by name, each a function that gives what is wrong."""
    found = {f"beside {name}": lambda name=name: beside(run_live, program, name) for name in CROWDS}
    found |= {f"a viewer beside {name}": lambda name=name: behind_pushes(run_live, program, name) for name in PUSHES}
    found["a push beside a crowd on another channel"] = lambda: push_beside_another_channel(run_live, program)
    found["why under pods of many segments"] = lambda: why_of_long_pods(run_live, program)
    found["texts that only readers hold"] = lambda: unread_texts(run_live, program)
    found["large bodies without a pause"] = lambda: large_bodies_end(run_live, program)
    found["no files left"] = lambda: no_files(run_live, program)
    found["faults that nobody reads"] = lambda: unread_faults(run_live, program)
    return found


if __name__ == "__main__":
    be_good(int(sys.argv[1]), sys.argv[2].encode())
