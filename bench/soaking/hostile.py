"""What a hostile origin costs a server: texts that are small or large, each pushed to a server of its own, with a limit on its
address space and with none. Prints a row for each, as docs/operating/security.md has some."""
import json
from random import Random

import large
from servers import BODY, Server, get, program_of, put, run_live

run_live.SECONDS = 600  # for one connection: the longest texts take their time
GIB = 1 << 30
LIMIT = 2 * GIB  # what the unit of systemd has
ROUTE = b"/channels/news"
SHOWN = ROUTE + b"/live.m3u8"
GOOD = b"#EXTM3U\n#EXT-X-TARGETDURATION:10\n#EXTINF:10,\ns0.ts\n#EXTINF:10,\ns1.ts\n"
NEXT = GOOD + b"#EXTINF:10,\ns2.ts\n"


def under_one_key(length):
    """One key whose IVs are told by the segments' numbers, with a URI of so many bytes, under 10,000 segments."""
    key = b'#EXT-X-KEY:METHOD=AES-128,URI="' + b"k" * length + b'"\n'
    return large.HEAD + key + large.segments(large.MAX_SEGMENTS)


def longest_key():
    return under_one_key(large.MAX_BYTES - len(under_one_key(0)))


def empty_lines():
    tail = large.segments(1)
    return large.HEAD + b"\n" * (large.MAX_BYTES - len(large.HEAD) - len(tail)) + tail


def no_change(made):
    """A large text as it is, without the parts that may be drawn."""
    class Least(Random):
        def choice(self, given):
            return given[1] if len(given) == 3 else given[0]

    return made(Least(0))


def entered_again(times):
    """Two breaks that are entered in turns, so many times in all: the times of each three segments begin again."""
    begins = [b"2024-05-01T12:00:%d0Z" % n for n in (1, 2, 3)]
    ranges = b"".join(b'#EXT-X-DATERANGE:ID="b%d",START-DATE="%s",DURATION=10,SCTE35-OUT=%s\n' % (n, begins[n], large.OUT)
                      for n in range(2))
    return large.HEAD + ranges + large.segments(3 * times // 2, lambda n: b"#EXT-X-PROGRAM-DATE-TIME:%s\n" % begins[n % 3])


def pods(segments, length):
    """A decision file with a pod for each of the two, of segments with URIs of so many bytes."""
    segment = {"uri": "http://ads.example/" + "a" * length, "duration": "1"}
    ads = [{"segments": [segment] * segments}]
    return json.dumps({"breaks": [{"id": f"b{n}", "ads": ads} for n in range(2)]}).encode()


# What is pushed: its name, the decisions before it (or None), the playlist (or None), and whether it is tried without a limit.
CASES = [
    ("10,000 segments with short URIs", None, lambda: no_change(large.many_segments), True),
    ("the largest playlist: 10,000 segments in 4 MiB", None, lambda: no_change(large.long_segments), True),
    ("4 MiB of empty lines", None, empty_lines, True),
    ("140,000 date ranges", None, lambda: no_change(large.date_ranges), True),
    ("5,000 breaks at one instant, and 10,000 segments there", None, lambda: no_change(large.breaks_at_one_start), True),
    ("190,000 discontinuities", None, lambda: no_change(large.discontinuities), True),
    ("8,000 keys, each with a URI of 300 bytes", None, lambda: no_change(large.keys_in_turns), True),
    ("one key with a URI of 1 KB, 10,000 segments", None, lambda: under_one_key(1_000), True),
    ("one key with a URI of 10 KB, 10,000 segments", None, lambda: under_one_key(10_000), True),
    ("one key with a URI of 100 KB, 10,000 segments", None, lambda: under_one_key(100_000), True),
    ("one key with a URI of 1 MB, 10,000 segments", None, lambda: under_one_key(1_000_000), False),
    ("one key with a URI that fills 4 MiB, 10,000 segments", None, longest_key, False),
    ("breaks entered 100 times, pods of 500 segments", pods(500, 40), lambda: entered_again(100), True),
    ("breaks entered 6,666 times, pods of 500 segments", pods(500, 40), lambda: entered_again(6666), True),
    ("breaks entered 6,666 times, pods of 2 MB each", pods(500, 4_000), lambda: entered_again(6666), False),
    ("a decision file of 4 MiB of [", b"[" * large.MAX_BYTES, None, True),
    ("a decision file of 100 breaks with 500 ads each", no_change(large.many_ads), None, True),
]


def size(count):
    for unit, name in ((1 << 30, "GiB"), (1 << 20, "MiB"), (1 << 10, "KiB")):
        if count >= unit:
            return f"{count / unit:.1f} {name}"
    return f"{count} bytes"


def status_of(reply):
    body = reply.partition(b"\r\n\r\n")[2]
    fault = body.strip().decode("utf-8", "replace") if reply[9:10] == b"4" else ""
    return (reply[9:12].decode() + " " + fault).strip() or "no reply"


def is_as_it_was(server, before):
    """Whether the channel shows what it showed, and takes the next good refresh."""
    return server.get(SHOWN) == before and server.put(ROUTE + b"/origin", NEXT) == run_live.NO_CONTENT


def pushed(program, decided, text, room):
    """What became of a push: its statuses and seconds, what a read then took and told, the most memory, and whether the
    channel is as it was if the push was refused."""
    server = Server(program, room)
    try:
        server.ask(put(ROUTE, BODY))
        server.ask(put(ROUTE + b"/origin", GOOD))
        before = server.get(SHOWN)
        replies = [server.timed(put(ROUTE + route, body))
                   for route, body in ((b"/decisions", decided), (b"/origin", text)) if body is not None]
        reply, seconds = server.timed(get(SHOWN))
        is_refused = any(found[9:10] != b"2" for found, _ in replies)
        kept = is_as_it_was(server, before) if is_refused else None
        told = ", ".join(server.told())
        status = " and ".join(status_of(found) for found, _ in replies) + (f" ({told})" if told else "")
        return status, sum(took for _, took in replies), len(reply), seconds, server.most_memory(), kept
    finally:
        server.stop()


def row(program, name, decided, made, is_unlimited):
    """One line of the table, and whether each refused push left its channel as it was."""
    text = made() if made else None
    cells, kept = [name, size(len(text or decided))], []
    for room in (None, LIMIT):
        if room is None and not is_unlimited:
            cells.append("not tried")
            continue
        status, took, written, read, most, was_kept = pushed(program, decided, text, room)
        shown = f", read in {read:.2f} s ({size(written)})" if was_kept is None else ""
        cells.append(f"{status} in {took:.2f} s{shown}; {size(most)}" + ("" if was_kept is not False else "; NOT as it was"))
        kept.append(was_kept is not False)
    print("| " + " | ".join(cells) + " |", flush=True)
    return all(kept)


# ---- many at once

def full_server(program):
    """64 channels, each with the largest playlist."""
    server, text = Server(program), no_change(large.long_segments)
    try:
        for number in range(64):
            route = b"/channels/c%d" % number
            server.ask(put(route, BODY))
            server.ask(put(route + b"/origin", text))
        print(f"64 channels with the largest playlist: {size(server.memory())}, at most {size(server.most_memory())}", flush=True)
        return server.get(b"/channels/c63/live.m3u8").startswith(b"HTTP/1.1 200 ")
    finally:
        server.stop()


def wait_behind(program, count, text):
    """How long a good request waits behind clients that came before it, sent this and stay."""
    server = Server(program)
    try:
        server.ask(put(ROUTE, BODY))
        held = [server.connect() for _ in range(count)]
        for it in held:
            it.sendall(text)
        reply, seconds = server.timed(get(ROUTE + b"/why"))
        for it in held:
            it.close()
        return reply.startswith(b"HTTP/1.1 200 "), seconds
    finally:
        server.stop()


def main(folder):
    program = program_of(folder)
    print("| pushed | its size | without a limit: status, time, most memory | with 2 GiB of address space |\n|---|---|---|---|")
    kept = [row(program, *case) for case in CASES]
    kept.append(full_server(program))
    for what, count, text in (("silent", 3, b""), ("answered, and not closed", 20, get(ROUTE + b"/why"))):
        is_well, seconds = wait_behind(program, count, text)
        print(f"behind {count} clients at once ({what}) a good request takes {seconds:.1f} s")
        kept.append(is_well)
    print(f"soak hostile: {sum(kept)} passed, {len(kept) - sum(kept)} failed")
    return 0 if all(kept) else 1
