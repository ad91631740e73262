"""Requests to a live server of which the memory is refused: what comes before each, what it is answered, and what is asked
afterwards to see whether it changed anything."""
import json
import os
import sys
from collections import namedtuple

sys.path.insert(0, os.path.join(os.path.dirname(os.path.dirname(os.path.abspath(__file__))), "live"))

from playlists import daterange, decisions, fallback, origin_text, owed_text, window  # noqa: E402

# A request (`asked`) after others (`before`), with its reply (`owed`) and the fault that is printed (`fault`); `reads`: the
# paths whose replies tell all that can be seen; `after`: requests whose replies tell what can't be seen at once. A
# request that is cut (`is_cut`) ends before it is whole.
Case = namedtuple("Case", "name before asked owed reads after fault is_cut", defaults=([], b"", False))

BASE = "http://origin.example/ch/index.m3u8"
PLAIN = "text/plain; charset=utf-8"
PLAYLIST = "application/vnd.apple.mpegurl"
CREATED = "201 Created"
DONE = "204 No Content"
FULL = "503 Service Unavailable"


def reply(status, body="", kind=PLAIN, more=""):
    """A reply by its status line; none but 204 is without a length."""
    head = f"HTTP/1.1 {status}\r\n" + (f"Content-Type: {kind}\r\n" if body else "") + more
    length = "" if status == DONE else f"Content-Length: {len(body)}\r\n"
    return f"{head}{length}Connection: close\r\n\r\n{body}".encode()


def request(method, path, body=None):
    length = "" if body is None else f"Content-Length: {len(body)}\r\n"
    return f"{method} {path} HTTP/1.1\r\nHost: h\r\n{length}\r\n{body or ''}".encode()


def make(name="news", **said):
    return request("PUT", f"/channels/{name}", json.dumps({"base": BASE, **said}))


def show(body, name="news"):
    return request("PUT", f"/channels/{name}/origin", body)


def decide(body, name="news"):
    return request("PUT", f"/channels/{name}/decisions", body)


def withdraw(break_id):
    return decide(json.dumps({"withdraw": break_id}))


def get(what, name="news"):
    return request("GET", f"/channels/{name}/{what}")


def reads_of(*names):
    return [get(what, name) for name in names for what in ("live.m3u8", "why")]


AB = decisions(("b1", ["a0", "a1"]))
X = decisions(("b1", ["x0"]))
Y = decisions(("b2", ["y0"]))
FOUR = decisions(("b1", ["x0", "x1", "x2", "y0"]))  # 40 s, for a break of 30 s
FALLBACK, LONG_FALLBACK, OTHER_FALLBACK, NO_FALLBACK = fallback(["x0"]), fallback(["a0", "a1"]), fallback(["y0"]), fallback(None)
# b1 has the segments 1 to 3, and b2 the segment 6
RANGES = [daterange("b1", 10), daterange("b2", 60, "DURATION=10")]
OTHER = [make("other"), decide(X, "other"), show(origin_text(0, 2, ranges=RANGES), "other")]
READS = reads_of("news", "other")
DECIDED = [*OTHER, make(), decide(AB)]


def origin(first, last, **how):
    return show(origin_text(first, last, ranges=RANGES, **how))


def later(first):
    """What tells a channel's decisions, knowledge, marks and numbers: refreshes up to b2 and past it, and withdrawals."""
    return [origin(first, 5), decide(Y), origin(first, 6), get("live.m3u8"), get("why"), withdraw("b1"), withdraw("b2"),
            origin(6, 7), get("live.m3u8"), get("why"), withdraw("b1"), withdraw("b2"), make()]


LENT = [*OTHER, make(), decide(FALLBACK)]
SHOWN = [*DECIDED, origin(0, 2)]  # s0 and then the pod of b1
PASSED = [*SHOWN, origin(1, 3)]  # the pod of b1
OPENED = [*OTHER, make(), decide(FOUR), origin(0, 1)]  # s0 and then the first segment of the pod of b1
LEFT = [*OPENED, origin(1, 3), origin(4, 5)]  # the last segment of that pod, which came due behind the window, and then s4 and s5


def case(name, before, asked, owed, after=(), reads=READS, **how):
    return Case(name, list(before), asked, owed, reads, list(after), **how)


def channels_made():
    base = {"base": 5}
    yield case("a first channel", [], make(), reply(CREATED), [*DECIDED[3:], *later(0)])
    yield case("a channel with a tolerance", OTHER, make(tolerance="0.25"), reply(CREATED), later(0))
    for count in (2, 9, 18, 36):  # (the table grows beside 9, 18 and 36)
        before = [make(f"c{number}") for number in range(count)]
        yield case(f"a channel beside {count}", before, make(), reply(CREATED), later(0), reads_of("news", "c0", f"c{count - 1}"))
    full = [make(f"c{number}") for number in range(64)]
    yield case("a 65th channel", full, make(), reply(FULL), [request("DELETE", "/channels/c3"), make(), make()],
               reads_of("news", "c0", "c63"))
    yield case("a channel that exists", SHOWN, make(), reply("409 Conflict", "channel exists\n"), later(0))
    for body, fault in (("{", "J1 NotJson"), (json.dumps(base), "J2 Shape"), ('{"base":"ftp://o.example/"}', "C1 BadBase"),
                        (json.dumps({"base": BASE, "tolerance": "11"}), "C2 BadTolerance")):
        yield case(f"a channel refused with {fault}", OTHER, request("PUT", "/channels/news", body),
                   reply("422 Unprocessable Entity", fault + "\n"), [make(), *later(0)])


def rich_origin():
    """Segments under keys of two formats, with initialisation sections and byte ranges."""
    key = '#EXT-X-KEY:METHOD=AES-128,URI="k{0}",IV=0x{0}\n#EXT-X-KEY:METHOD=SAMPLE-AES,URI="f{0}",KEYFORMAT="com.example"\n'
    lines = ["#EXTM3U\n#EXT-X-VERSION:7\n#EXT-X-TARGETDURATION:10\n", *(f"#EXT-X-DATERANGE:{it}\n" for it in RANGES),
             "#EXT-X-PROGRAM-DATE-TIME:2024-05-01T12:00:00Z\n"]
    for number in range(4):
        lines += [key.format(number), f'#EXT-X-MAP:URI="i{number}.mp4",BYTERANGE="9@{number}"\n'] if number != 2 else []
        lines.append(f"#EXTINF:10,title\n#EXT-X-BYTERANGE:5@{10 * number}\nall.mp4\n")
    return "".join(lines)


def rich_pod():
    segments = [{"uri": f"http://ads.example/a{n}.mp4", "duration": "9", "offset": n, "length": 5} for n in range(2)]
    key = {"method": "AES-128", "uri": "http://ads.example/k", "iv": "0x5", "format": "com.ads"}
    ad = {"map": {"uri": "http://ads.example/i.mp4", "offset": 0, "length": 9}, "key": key, "segments": segments}
    return json.dumps({"breaks": [{"id": "b1", "ads": [ad, {**ad, "segments": segments[:1]}]}]})


def refreshes():
    yield case("a first refresh", DECIDED, origin(0, 2), reply(DONE), later(0))
    yield case("a refresh of a filled break", SHOWN, origin(1, 3), reply(DONE), later(1))
    yield case("a third refresh, past a filled break", PASSED, origin(4, 5), reply(DONE), later(4))
    yield case("a refresh that enters a second break", [*PASSED, decide(Y)], origin(3, 6), reply(DONE), later(3))
    yield case("the same refresh again", SHOWN, origin(0, 2), reply(DONE), later(0))
    yield case("a refresh that ends", SHOWN, origin(0, 3, ended=True), reply(DONE), later(0))
    rich = [*OTHER, make(), decide(rich_pod())]
    yield case("a refresh of keys, sections and ranges", rich, show(rich_origin()), reply(DONE), [show(rich_origin()), *later(0)])
    more = "#EXTINF:10,title\n#EXT-X-BYTERANGE:5@40\nall.mp4\n"
    went_on, turned = rich_origin() + more, rich_origin().replace("title\n#EXT-X-BYTERANGE:5@20", "other\n#EXT-X-BYTERANGE:5@20") + more
    yield case("a refresh that goes on with keys, sections and ranges", [*rich, show(rich_origin())], show(went_on), reply(DONE), [show(went_on), *later(0)])
    yield case("a refresh that is read whole, after a changed line", [*rich, show(rich_origin())], show(turned), reply(DONE), [show(turned), *later(0)])
    yield case("a refresh that opens a run", [*OPENED[:-1], origin(0, 0)], origin(0, 1), reply(DONE), later(0))
    yield case("a refresh within an open run", OPENED, origin(0, 2), reply(DONE), later(0))
    yield case("a refresh that leaves the rest of a pod", LEFT[:-1], LEFT[-1], reply(DONE), later(4))
    yield case("a refresh that keeps the rest of a pod", LEFT, origin(4, 6), reply(DONE), later(4))
    yield case("a refresh that is past the rest of a pod", LEFT, origin(5, 6), reply(DONE), later(5))
    yield case("a first refresh with the fallback", LENT, origin(0, 2), reply(DONE), [decide(NO_FALLBACK), *later(0)])
    yield case("a refresh that enters both breaks with the fallback", LENT, origin(0, 6), reply(DONE), [decide(NO_FALLBACK), *later(0)])
    yield case("a refresh that enters a second break with the fallback", [*LENT, origin(0, 3)], origin(1, 6), reply(DONE), [decide(NO_FALLBACK), *later(1)])
    unread, refused = "422 Unprocessable Entity", "409 Conflict"
    top = 2**64 - 2
    yield case("a refresh with the fallback refused with N10 NumberRange", [*LENT, decide(LONG_FALLBACK)], show(origin_text(0, 1, ranges=RANGES, sequence=top)),
               reply(refused, "N10 NumberRange\n"), later(1))
    for before, body, status, fault in (
            (SHOWN, origin_text(0, 3, before={3: ["#EXT-X-KEY:METHOD=AES-128"]}), unread, "P12 MissingAttribute line 12"),
            (SHOWN, origin_text(0, 3) + "s4.ts\n", unread, "P17 NoDuration line 14"),
            (SHOWN, "", unread, "P3 NoHeader line 1"),
            (PASSED, origin_text(0, 3, ranges=RANGES), refused, "N5 Back"),
            (SHOWN, origin_text(4, 6, ranges=RANGES), refused, "N6 Gap"),
            (SHOWN, origin_text(0, 3, ranges=RANGES, names={2: "other"}), refused, "N8 Changed 2"),
            (DECIDED, origin_text(0, 1, ranges=RANGES, sequence=top), refused, "N10 NumberRange")):
        yield case(f"a refresh refused with {fault}", before, show(body), reply(status, fault + "\n"), later(1))


def files_of_decisions():
    three = decisions(("b1", ["x0"]), ("b2", ["y0", "a0"]), ("b3", ["a1"]))
    segment = {"uri": "http://ads.example/a.ts", "duration": "1"}

    def pod(*segments):
        return json.dumps({"breaks": [{"id": "b1", "ads": [{"segments": list(segments)}]}]})

    def many(count):
        return json.dumps({"breaks": [{"id": f"m{n}", "ads": [{"segments": [segment]}]} for n in range(count)]})

    made, full = [*OTHER, make()], [*OTHER, make(), decide(many(256))]
    growing = decisions(("b1", ["x0"]), *((f"n{number}", ["x0"]) for number in range(3)), ("b2", ["y0"]))
    yield case("a first decision", made, decide(AB), reply(DONE), later(0))
    yield case("a decision of all members", made, decide(rich_pod()), reply(DONE), [show(rich_origin())])
    yield case("a decision that replaces", DECIDED, decide(X), reply(DONE), later(0))
    yield case("decisions that replace and add", DECIDED, decide(three), reply(DONE), later(0))
    yield case("decisions for which the store grows", [*DECIDED, decide(many(7))], decide(growing), reply(DONE), later(0))
    yield case("a decision on a second break", SHOWN, decide(Y), reply(DONE), later(0))
    yield case("a decision that replaces one of 256", full, decide(decisions(("m7", ["y0"]))), reply(DONE), later(0))
    yield case("a fallback", made, decide(FALLBACK), reply(DONE), later(0))
    yield case("a fallback that replaces", [*LENT, origin(0, 2)], decide(OTHER_FALLBACK),
               reply(DONE), later(0))
    yield case("no fallback", LENT, decide(NO_FALLBACK), reply(DONE), later(0))
    yield case("a withdrawal", DECIDED, withdraw("b1"), reply(DONE), later(0))
    yield case("a decision after 20,000 spaces", made, decide(" " * 20_000 + AB), reply(DONE), later(0))
    unread, refused = "422 Unprocessable Entity", "409 Conflict"
    for before, body, status, fault in (
            (DECIDED, "{", unread, "J1 NotJson"), (DECIDED, "[]", unread, "J2 Shape"),
            (DECIDED, pod(segment, {**segment, "uri": "a.ts"}), unread, "J3 BadUri break 0 ad 0 segment 1"),
            (DECIDED, pod({**segment, "duration": "x"}), unread, "J4 BadDuration break 0 ad 0 segment 0"),
            (DECIDED, pod(), unread, "J6 EmptyPod break 0 ad 0"), (SHOWN, X, refused, "J9 Used"),
            (full, X, refused, "J10 Full"), (DECIDED, '{"withdraw":"q"}', refused, "J11 Unknown"),
            (SHOWN, '{"withdraw":"b1"}', refused, "J9 Used")):
        yield case(f"decisions refused with {fault}: {body[:30]}", before, decide(body), reply(status, fault + "\n"), later(0))


def reads():
    none_found = reply("404 Not Found", "not found\n")
    shown = owed_text(window("s0 / a0 a1"), ranges=RANGES[1:])
    yield case("a playlist is read", SHOWN, get("live.m3u8"), reply("200 OK", shown, PLAYLIST), later(0))
    yield case("a playlist that isn't there yet is read", DECIDED, get("live.m3u8"), none_found, later(0))
    yield case("a playlist of no channel is read", OTHER, get("live.m3u8"), none_found)
    yield case("why is read", SHOWN, get("why"), reply("200 OK", "b1\tFilled\nb2\tNotDecided\n"), later(0))
    yield case("why is read where no break is known", DECIDED, get("why"), reply("200 OK"), later(0))
    yield case("why of no channel is read", OTHER, get("why"), none_found)


def others():
    gone, none_found = request("DELETE", "/channels/news"), reply("404 Not Found", "not found\n")
    bad, body = reply("400 Bad Request", "bad request\n"), "method not allowed\n"
    yield case("a channel is removed", SHOWN, gone, reply(DONE), later(0))
    yield case("the first of three channels is removed", [*SHOWN, make("c")], request("DELETE", "/channels/other"), reply(DONE),
               [*later(0), make("other")], reads_of("other", "news", "c"))
    yield case("no channel is removed", OTHER, gone, none_found)
    yield case("no such route", SHOWN, request("GET", "/channels"), none_found, later(0))
    yield case("a name in capitals", SHOWN, request("GET", "/channels/News/why"), none_found, later(0))
    head = reply("405 Method Not Allowed", body, more="Allow: GET\r\n").removesuffix(body.encode())
    yield case("HEAD", SHOWN, request("HEAD", "/channels/news/live.m3u8"), head, later(0))
    for method, path, allow in (("GET", "", "PUT, DELETE"), ("DELETE", "/origin", "PUT"), ("DELETE", "/decisions", "PUT"),
                                ("A-METHOD-OF-MORE-THAN-FIFTEEN-BYTES", "/why", "GET")):
        yield case(f"{method} of a channel{path}", SHOWN, request(method, f"/channels/news{path}"),
                   reply("405 Method Not Allowed", body, more=f"Allow: {allow}\r\n"), later(0))
    start, length = b"PUT /channels/news/origin HTTP/1.1\r\n", b"Content-Length: %d\r\n"
    yield case("no head", SHOWN, b"no head\r\n\r\n", bad, later(0))
    yield case("two lengths", SHOWN, start + length % 1 * 2 + b"\r\n", bad, later(0))
    yield case("no length", SHOWN, start + b"\r\n", reply("411 Length Required", "length required\n"), later(0))
    yield case("a length too large", SHOWN, start + length % 4_194_305 + b"\r\n", reply("413 Payload Too Large", "too large\n"), later(0))
    yield case("a request that ends in its body", SHOWN, start + length % 9 + b"\r\n#EXT", b"", later(0), fault=b"E4 Ended\n", is_cut=True)


def cases():
    return [*channels_made(), *refreshes(), *files_of_decisions(), *reads(), *others()]
