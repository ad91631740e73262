"""Cases of live channels that are worked by hand, beside the tables of worked values: what the origin says, and what is owed for it."""
from events import Case
from limits import DECIDED_BREAKS, number_of
from playlists import NOT_OUT, daterange, decisions, fallback, instant, origin_text, owed_text, window

AB = decisions(("b1", ["a0", "a1"]))
B1 = daterange("b1", 10)
CASES = []
MOST = number_of(DECIDED_BREAKS)


def case(name):
    """A case with one channel, to which pod AB is given for b1."""
    made = Case(name).channel().decide(AB)
    CASES.append(made)
    return made


def bare(name):
    """A case with no channel yet."""
    made = Case(name)
    CASES.append(made)
    return made


def shows(made, body, fresh, items, **how):
    """A refresh is accepted, and this window is written."""
    made.refresh(body, f"ok {items[0].media} {len(items)} {fresh}")
    return made.playlist(owed_text(items, **how))


def many(count):
    """A decision file of so many breaks."""
    return decisions(*((f"break {n}", ["x0"]) for n in range(count)))


def runs(name, segments, written, *ranges, pods=AB, **how):
    """A case of one refresh of a fresh channel: segments 0 to the last, and what is written."""
    made = Case(name).channel().decide(pods)
    CASES.append(made)
    return shows(made, origin_text(0, segments - 1, ranges=ranges, **how), segments, written)


# ---- what is written from window to window

made = bare("two channels in turns").channel().channel("http://second.example/ch/index.m3u8")
made.to(1).decide(AB).to(0).decide(decisions(("b1", ["x0"])))
for first, fresh, items, other in (
        (0, 3, window("s0 / a0 a1"), window("s0 / x0")),
        (1, 1, window("/ a0 a1", 1), window("/ x0", 1)),
        (3, 2, window("/ a0 a1 / s4 s5", 1), window("/ x0 / s4 s5", 1))):
    body = origin_text(first, first + 2, ranges=[B1])
    made.to(1).refresh(body, f"ok {items[0].media} {len(items)} {fresh}")
    made.to(0).refresh(body, f"ok {other[0].media} {len(other)} {fresh}")
    made.to(1).playlist(owed_text(items))
    made.to(0).playlist(owed_text(other).replace("origin.example", "second.example"))

made = case("titles and times are those of the first refresh")
shows(made, origin_text(0, 1, titles={0: "one"}), 2, window("s0 s1"), titles={"s0": "one"})
later = origin_text(0, 2, titles={0: "two", 2: "new"}, times={0: instant(100), 1: instant(500)})
shows(made, later, 1, window("s0 s1 s2"), titles={"s0": "one", "s2": "new"})

made = case("a segment begins where the one before it ended, also across refreshes")
shows(made, origin_text(0, 0, durations={0: "9.96"}), 1, window("s0"), durations={"s0": "9.96"})
shows(made, origin_text(1, 2, durations={1: "10.04"}), 2, window("s1 s2", 1, times={"s1": instant(9.96)}), durations={"s1": "10.04"})

made = case("a time that is stated later in a window tells those before it, in the refresh that shows them")
untimed = {"s0": None, "s1": None}
shows(made, origin_text(0, 1, times={}), 2, window("s0 s1", times=untimed))
shows(made, origin_text(0, 3, times={3: instant(30)}), 2, window("s0 s1 s2 s3", times=untimed))

# ---- which segments a break has

runs("breaks are entered in turn where times begin again", 7, window("s0 / a0 a1 / y0 / s3 / a0 a1 / y0 / s6", times={"s6": instant(30)}),
     daterange("b1", 10, "DURATION=10"), daterange("b2", 20, "DURATION=10"), pods=decisions(("b1", ["a0", "a1"]), ("b2", ["y0"])),
     times={0: instant(0), 4: instant(10)})
runs("a segment whose time lies before its break stays inside", 4, window("s0 / a0 a1 / s3", times={"s3": instant(40)}),
     B1, times={0: instant(0), 2: instant(0), 3: instant(40)})

made = case("the first value of an attribute stands")
shows(made, origin_text(0, 1, ranges=[daterange("b1", 10, "PLANNED-DURATION=30")]), 2, window("s0 / a0 a1"))
shows(made, origin_text(0, 4, ranges=[daterange("b1", 10, "PLANNED-DURATION=10")]), 3, window("s0 / a0 a1 / s4"))

made = case("the first signal stands, also one that is of no use")
bad = daterange("b1", 10, out=NOT_OUT)
shows(made, origin_text(0, 0, ranges=[bad]), 1, window("s0"), ranges=[bad])
shows(made, origin_text(0, 1, ranges=[B1]), 1, window("s0 s1"), ranges=[B1])
made.why("b1", "NotSignalled")

# ---- which breaks are known

made = case("the newest mark keeps its break known")
shows(made, origin_text(0, 1, ranges=[B1]), 2, window("s0 / a0 a1"))
shows(made, origin_text(0, 2), 1, window("s0 / a0 a1")).known("b1 Filled")
shows(made, origin_text(0, 4), 2, window("s0 / a0 a1 / s4")).known("b1 Filled")
shows(made, origin_text(0, 5), 1, window("s0 / a0 a1 / s4 s5")).known().why("b1", "Filled")

made = case("a break that has left the date ranges is known anew, with new values")
late = daterange("b1", 10, "DURATION=5")
shows(made, origin_text(0, 0, ranges=[daterange("b1", 40)]), 1, window("s0"), ranges=[daterange("b1", 40)]).known("b1 Waiting")
shows(made, origin_text(0, 0), 0, window("s0")).known().why("b1", "NotKnown")
shows(made, origin_text(0, 2, ranges=[late]), 2, window("s0 / a0 a1 / s2")).known("b1 Filled")

made = bare("breaks are known in the order in which they became so").channel()
first, second, third = (daterange(f"b{n}", 100 * n) for n in (1, 2, 3))
shows(made, origin_text(0, 0, ranges=[first, second]), 1, window("s0"), ranges=[first, second])
made.known("b1 NotDecided", "b2 NotDecided")
shows(made, origin_text(0, 0, ranges=[third, second]), 0, window("s0"), ranges=[third, second])
made.known("b2 NotDecided", "b3 NotDecided")

made = bare("why a break is not filled").channel()
small = daterange("b6", 300)
made.decide(decisions(("b4", ["a0"]), ("b5", ["y0"])))
unfilled = [daterange("b3", 100, out=""), daterange("b4", 200), daterange("b5", 400), small]
shows(made, origin_text(0, 0, ranges=unfilled, target=9, durations={0: "9"}), 1, window("s0"), ranges=unfilled, target=9, durations={"s0": "9"})
made.known("b3 NotSignalled", "b4 Waiting", "b5 DoesNotFit", "b6 NotDecided").why("b7", "NotKnown")

made = bare("sections that signal nothing")
for out in (NOT_OUT, "0xF", "0xFC", "nothing", '""'):
    silent = daterange("b1", 10, out=out)
    shows(made.channel().decide(AB), origin_text(0, 1, ranges=[silent]), 2, window("s0 s1"), ranges=[silent]).known("b1 NotSignalled")

made = bare("a pod fits by its longest segment, 9.5 s, and where no segment has an initialisation section")
for target, header, word in ((10, [], "Waiting"), (9, [], "DoesNotFit"), (10, ['#EXT-X-MAP:URI="init.mp4"'], "DoesNotFit")):
    body = origin_text(0, 0, ranges=[daterange("b1", 100), daterange("b9", 100)], target=target, header=header, durations={0: "9"})
    made.channel().decide(AB).refresh(body, "ok 0 1 1").known(f"b1 {word}", "b9 NotDecided").why("b2", "NotKnown")

# ---- pods while they are used, and after

made = bare("a withdrawal by a file").channel()
made.decide('{"withdraw":"b1"}', "J11 Unknown").decide(AB)
shows(made, origin_text(0, 0, ranges=[B1]), 1, window("s0"), ranges=[B1]).why("b1", "Waiting")
made.decide('{"withdraw":"b1"}').why("b1", "NotDecided")
shows(made, origin_text(0, 1, ranges=[B1]), 1, window("s0 s1"), ranges=[B1])

made = bare("a pod that was not entered stays when those of other breaks are given up").channel()
made.decide(decisions(("b1", ["a0", "a1"]), ("b2", ["x0"]), ("b3", ["y0"])))
later, ended, last = daterange("b1", 500), daterange("b2", 10, "DURATION=10"), daterange("b3", 20, "DURATION=10")
shows(made, origin_text(0, 3, ranges=[later, ended, last]), 4, window("s0 / x0 / y0 / s3"), ranges=[later])
shows(made, origin_text(3, 4, ranges=[later, ended, last]), 1, window("/ s3 s4", 3, 2), ranges=[later, ended])
made.known("b1 Waiting", "b2 NotDecided", "b3 Filled").withdraw("b2", "J11 Unknown").withdraw("b3", "J9 Used").withdraw("b1")

made = case("the last break entered keeps its pod and its date range out after its run has left the window")
for first, fresh, items in ((0, 6, window("s0 / a0 a1 / s4 s5")), (4, 2, window("/ s4 s5 s6 s7", 3, 1)), (6, 4, window("s6 s7 s8 s9 s10 s11", 5, 2))):
    last = {0: 5, 4: 7, 6: 11}[first]
    shows(made, origin_text(first, last, ranges=[B1]), fresh, items)
made.known("b1 Filled").decide(decisions(("b1", ["x0"])), "J9 Used").withdraw("b1", "J9 Used")
made.decide(decisions(("b2", ["y0"])))
second = daterange("b2", 130, "DURATION=10")
shows(made, origin_text(6, 14, ranges=[B1, second]), 3, window("s6 s7 s8 s9 s10 s11 s12 / y0 / s14", 5, 2), ranges=[B1])
made.known("b1 NotDecided", "b2 Filled").withdraw("b1", "J11 Unknown").decide(decisions(("b1", ["x0"])))
made.withdraw("b1").withdraw("b1", "J11 Unknown").withdraw("b2", "J9 Used")

made = bare("a pod that is decided after its segments were shown does not fill them").channel()
shows(made, origin_text(0, 2, ranges=[B1]), 3, window("s0 s1 s2"), ranges=[B1]).why("b1", "NotDecided")
made.decide(AB).why("b1", "Waiting")
shows(made, origin_text(0, 3, ranges=[B1]), 1, window("s0 s1 s2 s3"), ranges=[B1])

made = bare("decision files that are refused").channel()
made.decide('{"breaks":[{"id":"b","ads":[]}]}', "J6 EmptyPod break 0")
made.decide('{"withdraw":"q"}', "J11 Unknown").withdraw("q", "J11 Unknown")
made.decide(many(MOST + 1), "J10 Full").decide(many(MOST)).decide(AB, "J10 Full").withdraw("break 7").decide(AB)
shows(made, origin_text(0, 4, ranges=[B1], ended=True), 5, window("s0 / a0 a1 / s4"), ended=True)
made.decide(decisions(("b1", ["x0"])), "J9 Used").decide('{"withdraw":"b1"}', "J9 Used")

made = case("what is told of a filled break")
made.playlist(None).known().why("b1", "NotKnown")
shows(made, origin_text(0, 4, ranges=[B1], ended=True), 5, window("s0 / a0 a1 / s4"), ended=True)
made.why("b1", "Filled").why("q", "NotKnown").known("b1 Filled").withdraw("b1", "J9 Used").withdraw("q", "J11 Unknown")

made = bare("channels that can be made").channel(tolerance=10**10).channel(tolerance=10**10 + 1, owed="C2 BadTolerance")
made.channel("ftp://origin.example/", owed="C1 BadBase").channel("ftp://origin.example/", 10**10 + 1, "C1 BadBase")

# ---- pods at the pace of their runs

X3 = ["x0", "x1", "x2"]  # 30 s
SHORT = daterange("b1", 10, "DURATION=10")


def bare_channel(name):
    return bare(name).channel()


def rolling(name, pod, tag):
    made = bare_channel(name).decide(decisions(("b1", pod)))
    return lambda first, last, fresh, items, **how: shows(made, origin_text(first, last, ranges=[tag]), fresh, items, **how)


roll = rolling("a window goes on right after the pod of an open break", ["x0"], SHORT)
roll(0, 1, 2, window("s0 / x0"))
roll(2, 3, 2, window("/ s2 s3", 2, 1))

roll = rolling("a break that opens, is passed over by the window, and ends", X3, SHORT)
roll(0, 0, 1, window("s0"), ranges=[SHORT])
roll(1, 1, 1, window("/ x0", 1))
roll(2, 2, 1, window("x1 x2 / s2", 2, 1))
roll(3, 3, 1, window("s3", 5, 2))

for first, due in (("n0", "n0 x1"), ("x0", "x0"), ("n1", "n1")):
    roll = rolling(f"a front of {first} and a break of 10 s", [first, "x1"], B1)
    roll(0, 1, 2, window(f"s0 / {due}"))

# ---- a fallback

made = bare_channel("a fallback that doesn't fit").decide(fallback(["a0", "a1"]))
made.refresh(origin_text(0, 0, ranges=[daterange("b1", 100)], header=['#EXT-X-MAP:URI="init.mp4"']), "ok 0 1 1").known("b1 DoesNotFit")

made = bare_channel("a copy of the fallback takes no place of a decided break").decide(fallback(["x0"]))
shows(made, origin_text(0, 2, ranges=[B1]), 3, window("s0 / x0"))
made.decide(many(MOST)).decide(decisions(("more", ["x0"])), "J10 Full")

made = bare_channel("a refused refresh leaves no copy").decide(fallback(["a0", "a1"]))
made.refresh(origin_text(0, 1, sequence=2**64 - 2, ranges=[B1]), "N10 NumberRange").withdraw("b1", "J11 Unknown")
shows(made, origin_text(0, 0), 1, window("s0"))
made.refresh(origin_text(0, 1, ranges=[B1], target=11), "N2 TargetChanged").withdraw("b1", "J11 Unknown").why("b1", "NotKnown")

# ---- which playlist may follow

made = bare("what may not follow changes nothing").channel()
body = origin_text(10, 14, times={10: instant(100)})
shows(made, body, 5, window("s10 s11 s12 s13 s14", 10))
text = owed_text(window("s10 s11 s12 s13 s14", 10))
for refused, fault in (
        (origin_text(20, 24), "N6 Gap"), (origin_text(10, 15, before={13: ["#EXT-X-DISCONTINUITY"]}), "N8 Changed 13"),
        (origin_text(10, 14, header=['#EXT-X-MAP:URI="init.mp4"']), "N4 MapsChanged"), ("", "P3 NoHeader line 1")):
    made.refresh(refused, fault).playlist(text)
made.refresh(body, "ok 10 5 0").playlist(text)
shows(made, origin_text(15, 16, header=["#EXT-X-DISCONTINUITY-SEQUENCE:1000"]), 2, window("/ " * 1000 + "s15 s16", 15, 0))

made = case("the numbers end")
top = 2**64 - 2
full = origin_text(0, 1, sequence=top, ranges=[B1])
made.refresh(full, "N10 NumberRange").playlist(None).why("b1", "NotKnown").refresh(full, "N10 NumberRange").withdraw("b1")
made.refresh(origin_text(0, 2, sequence=top), "P9 BadValue line 11")
shows(made, full, 2, window("s0 s1", top), ranges=[B1])
