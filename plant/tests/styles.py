"""Styles of signals, as packagers write them: sequences of lists, each with the segments that its signals mean.

A sequence is of segments of 2 s, of which a list has eight. What stands before a segment is in `tags`, and leaves with it. A
date range stands before its segment, or in front of the first listed one, from the list that shows its segment on until the list
begins past its break. The times are worked by hand: segment 12 begins at 24 s, and
segment 17 at 34 s, ten seconds later."""
from dataclasses import dataclass, field

from sections import digits, letters, segmentation, splice_insert, time_signal
from tools import instant

LISTED, SEGMENT = 8, 2
SPLICE, BACK = 92_160_000, 93_060_000  # ticks of splices at 24 s and at 34 s after a clock's 1,000 s


@dataclass(frozen=True)
class Range:
    """A date range of these attributes before segment `place`; in front of all if it comes with an earlier list already, the one
    whose newest segment is `shown`."""

    text: str
    place: int
    shown: int = -1

    def is_listed(self, first, newest, end):
        """Whether the list from segment `first` to `newest` has it, whose break ends before segment `end`."""
        return (self.place if self.shown < 0 else self.shown) <= newest and first <= end

    def stands_at(self, first):
        """The segment before which it stands in the list from segment `first` on."""
        return max(self.place, first) if self.shown < 0 else first


@dataclass(frozen=True)
class Style:
    """A style: its `name`, the tags before segments by number, date ranges, and the breaks that they mean, each by its first segment
    and the one after its last. `ids`: those of the breaks, where they are worked by hand. `pod`: the seconds of the fallback, for
    breaks that end with it. `begun`: the newest segment of the first list. `newest`: that of the last one."""

    name: str
    breaks: tuple = ((12, 17),)
    tags: dict = field(default_factory=dict)
    ranges: tuple = ()
    ids: tuple = ()
    pod: int = 40
    begun: int = 2
    newest: int = 30
    is_known: bool = False

    def filled(self):
        """The numbers of the segments that are replaced."""
        return [number for begin, end in self.breaks for number in range(begin, end)]

    def listed(self, newest):
        """The list whose newest segment has this number."""
        first = max(0, newest + 1 - LISTED)
        lines = ["#EXTM3U", "#EXT-X-VERSION:6", f"#EXT-X-TARGETDURATION:{SEGMENT}", f"#EXT-X-MEDIA-SEQUENCE:{first}"]
        end = max([17, *(end for _, end in self.breaks)])
        ranges = [it for it in self.ranges if it.is_listed(first, newest, end)]
        for number in range(first, newest + 1):
            lines += [f"#EXT-X-DATERANGE:{it.text}" for it in ranges if it.stands_at(first) == number]
            lines += [*self.tags.get(number, []), f"#EXT-X-PROGRAM-DATE-TIME:{instant(number * SEGMENT)}", f"#EXTINF:{SEGMENT}.000,", f"s{number}.ts"]
        return "\n".join([*lines, ""])

    def lists(self, step=1, offset=0):
        """The lists in order; with `step` each of so many, so that several segments and tags come at once."""
        return [self.listed(it) for it in range(self.begun + offset, self.newest + 1, step)]


def range_of(name, seconds=None, place=None, shown=-1, **said):
    """A date range of the ID `name` and with START-DATE at so many seconds, before the segment that begins then; `said`: what it says
    besides, with `_` for `-`."""
    start = [] if seconds is None else [f'START-DATE="{instant(seconds)}"']
    rest = [f"{key.replace('_', '-')}={value}" for key, value in said.items()]
    return Range(",".join([f'ID="{name}"', *start, *rest]), place if place is not None else int(seconds // SEGMENT), shown)


def insert(is_out=True, seconds=None, event=1001, **more):
    """A splice_insert of event 1001."""
    return splice_insert(event, is_out, seconds, SPLICE if is_out else BACK, **more)


def signal(kind, seconds=None, event=1001, **more):
    """A time_signal with one segmentation descriptor of the type `kind`."""
    return time_signal(segmentation(event, kind, seconds, 8, bytes.fromhex("000000002CA0A18A"), **more), ticks=BACK if kind % 2 else SPLICE)


OUT, IN, OUT_10 = insert(), insert(False), insert(seconds=10)
START_34, END_35 = signal(0x34, 10), signal(0x35)
GOES_ON = [f"{2 * n}/10" for n in range(1, 5)]


def within(text, values=None):
    """The tag `text` before each of the segments 13 to 16, with {} for a value of its own."""
    return {number: [text.format(value)] for number, value in zip(range(13, 17), values or GOES_ON)}


def elapsed(text):
    """The same, with the seconds that have passed."""
    return within(text, [f"{2 * n}.000" for n in range(1, 5)])


# Those of which lists were handed over: the first eighteen.
STYLES = [
    Style("cue-duration-attribute", tags={12: ["#EXT-X-CUE-OUT:DURATION=10.000"], 17: ["#EXT-X-CUE-IN"]}, ids=("cue-12",)),
    Style("cue-elemental", tags={12: ["#EXT-X-CUE-OUT:10"], **within("#EXT-X-CUE-OUT-CONT:{}"), 17: ["#EXT-X-CUE-IN"]}, ids=("cue-12",)),
    Style("cue-enhanced-time-signal", ids=("1001-12",), tags={
        12: [f"#EXT-OATCLS-SCTE35:{letters(START_34)}", "#EXT-X-CUE-OUT:10.000"],
        **elapsed(f"#EXT-X-CUE-OUT-CONT:ElapsedTime={{}},Duration=10.000,SCTE35={letters(START_34)}"),
        17: [f"#EXT-OATCLS-SCTE35:{letters(END_35)}", "#EXT-X-CUE-IN"]}),
    Style("cue-no-in", tags={12: ["#EXT-X-CUE-OUT:10.000"]}),
    Style("dr-base64", ranges=(range_of("1001", 24, PLANNED_DURATION=10, SCTE35_OUT=f'"{letters(OUT_10)}"'),), ids=("1001",)),
    Style("dr-cancelled", breaks=(), ranges=(
        range_of("1001", 24, shown=9, PLANNED_DURATION=10, SCTE35_OUT=digits(OUT_10)),
        range_of("1001c", 24, shown=11, SCTE35_CMD=digits(insert(is_cancelled=True))))),
    Style("dr-cmd-insert", ranges=(range_of("a", 24, SCTE35_CMD=digits(OUT_10)), range_of("b", 34, SCTE35_CMD=digits(IN))), ids=("a",)),
    Style("dr-insert-in-own-id", ranges=(range_of("1001", 24, SCTE35_OUT=digits(OUT)), range_of("1001-in", 34, SCTE35_IN=digits(IN)))),
    Style("dr-insert-no-duration-no-in", pod=10, ranges=(range_of("1001", 24, SCTE35_OUT=digits(OUT)),), is_known=True),
    Style("dr-insert-off-by-300ms", ranges=(range_of("1001", 23.7, 12, PLANNED_DURATION=10, SCTE35_OUT=digits(OUT_10)),)),
    Style("dr-insert-planned-in", is_known=True, ranges=(
        range_of("1001", 24, PLANNED_DURATION=10, SCTE35_OUT=digits(OUT_10)), range_of("1001", place=17, DURATION=10, SCTE35_IN=digits(IN)))),
    Style("dr-program-start", breaks=(), ranges=(range_of("p", 24, SCTE35_CMD=digits(signal(0x10))),), is_known=True),
    Style("dr-time-signal-34", ids=("1001",), ranges=(
        range_of("1001", 24, PLANNED_DURATION=10, SCTE35_OUT=digits(START_34)), range_of("1001", 24, 17, DURATION=10, SCTE35_IN=digits(END_35)))),
    Style("dr-time-signal-nested", ids=("n1",), ranges=(
        range_of("n1", 24, PLANNED_DURATION=10, SCTE35_OUT=digits(time_signal(*(segmentation(3000 + n, it, 10) for n, it in enumerate((0x22, 0x34, 0x30)))))),
        range_of("n1", 24, 17, SCTE35_IN=digits(time_signal(*(segmentation(3002 - n, it) for n, it in enumerate((0x31, 0x35, 0x23)))))))),
    Style("ext-scte35", ids=("1001-12",), tags={
        12: [f'#EXT-X-SCTE35:TYPE=0x34,ID="1001",CUE="{letters(START_34)}",DURATION=10.0,CUE-OUT=YES'],
        **elapsed(f'#EXT-X-SCTE35:TYPE=0x34,ID="1001",CUE="{letters(START_34)}",DURATION=10.0,ELAPSED={{}},CUE-OUT=CONT'),
        17: [f'#EXT-X-SCTE35:TYPE=0x35,ID="1001",CUE="{letters(END_35)}",CUE-IN=YES']}),
    Style("oatcls-alone", ids=("1001-12",), tags={12: [f"#EXT-OATCLS-SCTE35:{letters(OUT_10)}"], 17: [f"#EXT-OATCLS-SCTE35:{letters(IN)}"]}),
    Style("placement-opportunity", breaks=(), tags={12: ["#EXT-X-PLACEMENT-OPPORTUNITY"]}, is_known=True),
    Style("splicepoint", ids=("1001-12",), tags={12: [f"#EXT-X-SPLICEPOINT-SCTE35:{letters(OUT_10)}"], 17: [f"#EXT-X-SPLICEPOINT-SCTE35:{letters(IN)}"]}),
]
# Further ones.
CUES = [
    Style("cue-without-duration", tags={12: ["#EXT-X-CUE-OUT"], 17: ["#EXT-X-CUE-IN"]}),
    Style("cue-of-no-seconds", tags={12: ["#EXT-X-CUE-OUT:0"], 17: ["#EXT-X-CUE-IN"]}),
    Style("cue-of-no-seconds-by-name", tags={12: ["#EXT-X-CUE-OUT:DURATION=0"], 17: ["#EXT-X-CUE-IN"]}),
    Style("cue-in-quotes", tags={12: ['#EXT-X-CUE-OUT:Duration="10"']}),
    Style("cue-by-iso-8601", tags={12: ["#EXT-X-CUE-OUT:DURATION=PT10.000S"]}),
    Style("cue-in-comes-early", tags={12: ["#EXT-X-CUE-OUT:20"], 17: ["#EXT-X-CUE-IN"]}),
    Style("cue-in-comes-late", tags={12: ["#EXT-X-CUE-OUT:10"], 18: ["#EXT-X-CUE-IN"]}),
    Style("cue-in-comes-twice", tags={12: ["#EXT-X-CUE-OUT:20"], 17: ["#EXT-X-CUE-IN"], 18: ["#EXT-X-CUE-IN"]}),
    Style("cue-in-alone", is_known=True, breaks=(), tags={17: ["#EXT-X-CUE-IN"]}),
    Style("cue-is-repeated", tags={number: ["#EXT-X-CUE-OUT:10"] for number in range(12, 17)}),
    Style("cue-without-duration-is-repeated", tags={**{number: ["#EXT-X-CUE-OUT"] for number in range(12, 17)}, 17: ["#EXT-X-CUE-IN"]}),
    Style("cue-goes-on-without-duration", tags={12: ["#EXT-X-CUE-OUT"], **within("#EXT-X-CUE-OUT-CONT:{}"), 17: ["#EXT-X-CUE-IN"]}),
    Style("cues-back-to-back", breaks=((12, 17), (17, 20)), ids=("cue-12", "cue-17"), tags={
        12: ["#EXT-X-CUE-OUT:10"], 17: ["#EXT-X-CUE-IN", "#EXT-X-CUE-OUT:6"], 20: ["#EXT-X-CUE-IN"]}),
    Style("cues-back-to-back-without-in", breaks=((12, 17), (17, 20)), ids=("cue-12", "cue-17"), tags={12: ["#EXT-X-CUE-OUT:10"], 17: ["#EXT-X-CUE-OUT:6"]}),
    Style("cue-after-a-cue-without-in", breaks=((8, 14), (14, 17)), pod=12, tags={8: ["#EXT-X-CUE-OUT"], 14: ["#EXT-X-CUE-OUT:6"]}),
    Style("two-breaks", breaks=((8, 11), (20, 23)), ids=("cue-8", "cue-20"), tags={
        8: ["#EXT-X-CUE-OUT:6"], 11: ["#EXT-X-CUE-IN"], 20: ["#EXT-X-CUE-OUT:6"], 23: ["#EXT-X-CUE-IN"]}),
    Style("cue-of-a-century", tags={12: ["#EXT-X-CUE-OUT:3155760000"], 17: ["#EXT-X-CUE-IN"]}),
    Style("cue-with-an-insert", ids=("1001-12",), tags={
        12: [f"#EXT-OATCLS-SCTE35:{letters(OUT_10)}", "#EXT-X-ASSET:CAID=0x0000000020FB6501", "#EXT-X-CUE-OUT:10.0"],
        **elapsed(f"#EXT-X-CUE-OUT-CONT:CAID=0x0000000020FB6501,ElapsedTime={{}},Duration=10.0,SCTE35={letters(OUT_10)}"), 17: ["#EXT-X-CUE-IN"]}),
    Style("cue-beside-a-section-that-does-not-read", tags={12: ["#EXT-OATCLS-SCTE35:/DA0AAA", "#EXT-X-CUE-OUT:10"], 17: ["#EXT-X-CUE-IN"]}),
    Style("oatcls-time-signal", tags={12: [f"#EXT-OATCLS-SCTE35:{letters(START_34)}"], 17: [f"#EXT-OATCLS-SCTE35:{letters(END_35)}"]}),
    Style("oatcls-program-start", is_known=True, breaks=(), tags={12: [f"#EXT-OATCLS-SCTE35:{letters(signal(0x10))}"]}),
    Style("oatcls-encrypted", is_known=True, breaks=(), tags={12: [f"#EXT-OATCLS-SCTE35:{letters(bytes([*OUT_10[:4], 0x80, *OUT_10[5:]]))}"]}),
    Style("scte35-cue-alone", tags={12: [f'#EXT-X-SCTE35:CUE="{letters(START_34)}"'], 17: [f'#EXT-X-SCTE35:CUE="{letters(END_35)}"']}),
    Style("scte35-type-alone", ids=("1001-12",), tags={12: ['#EXT-X-SCTE35:TYPE=0x34,ID="1001",DURATION=10'], 17: ['#EXT-X-SCTE35:TYPE=0x35,ID="1001"']}),
    Style("cue-splice-out", ids=("7-12",), tags={
        12: ['#EXT-X-CUE:TYPE="SpliceOut",ID="7",TIME=1024.000,DURATION=10.000'],
        **elapsed('#EXT-X-CUE:TYPE="SpliceOut",ID="7",TIME=1024.000,DURATION=10.000,ELAPSED={}')}),
    Style("cue-goes-on-for-longer", ids=("cue-12",), tags={12: ["#EXT-X-CUE-OUT:6"], **within("#EXT-X-CUE-OUT-CONT:{}", ["2/6", "4/10", "6/10", "8/10"])}),
    Style("cue-goes-on-for-longer-at-its-end", tags={12: ["#EXT-X-CUE-OUT:6"], **within("#EXT-X-CUE-OUT-CONT:{}", ["2/6", "4/6", "6/10", "8/10"])}),
    Style("cue-goes-on-for-longer-twice", tags={12: ["#EXT-X-CUE-OUT:6"], **within("#EXT-X-CUE-OUT-CONT:{}", ["2/8", "4/10", "6/10", "8/10"])}),
    Style("cue-goes-on-for-longer-and-ends-early", tags={12: ["#EXT-X-CUE-OUT:12"], **within("#EXT-X-CUE-OUT-CONT:{}", [f"{2 * n}/20" for n in range(1, 5)]), 17: ["#EXT-X-CUE-IN"]}),
    Style("cue-goes-on-once-it-is-over", tags={12: ["#EXT-X-CUE-OUT:10"], **within("#EXT-X-CUE-OUT-CONT:{}"), 18: ["#EXT-X-CUE-OUT-CONT:12/20"]}),
    Style("begun-within-a-break", breaks=(), begun=22, tags={12: ["#EXT-X-CUE-OUT:20"], **within("#EXT-X-CUE-OUT-CONT:{}"), **{
        number: [f"#EXT-X-CUE-OUT-CONT:{2 * (number - 12)}/20"] for number in range(15, 22)}, 22: ["#EXT-X-CUE-IN"]}),
    Style("begun-within-a-break-by-span", breaks=(), begun=22, tags={
        number: [f"#EXT-X-CUE-SPAN:TIMEFROMSIGNAL=PT{2 * (number - 12)}.000S,DURATION=PT20S"] for number in range(15, 22)}),
]
RANGES = [
    Style("dr-36-own-ids", ranges=(range_of("o", 24, SCTE35_OUT=digits(signal(0x36))), range_of("i", 34, SCTE35_IN=digits(signal(0x37))))),
    Style("dr-two-ads", breaks=((12, 14), (14, 17)), ids=("a", "b"), ranges=(
        range_of("a", 24, SCTE35_OUT=digits(signal(0x30, event=1))), range_of("a", 24, 14, SCTE35_IN=digits(signal(0x31, event=1))),
        range_of("b", 28, SCTE35_OUT=digits(signal(0x30, event=2))), range_of("b", 28, 17, SCTE35_IN=digits(signal(0x31, event=2))))),
    Style("dr-two-ads-without-ends", breaks=((12, 14), (14, 17)), ranges=(
        range_of("a", 24, SCTE35_OUT=digits(signal(0x30, event=1))), range_of("b", 28, SCTE35_OUT=digits(signal(0x30, 6, event=2))))),
    Style("dr-ads-within-an-opportunity", ids=("o",), ranges=(
        range_of("a", 24, SCTE35_OUT=digits(signal(0x30, 4, event=1))), range_of("o", 24, SCTE35_OUT=digits(signal(0x34, 10, event=3))),
        range_of("a", 24, 14, SCTE35_IN=digits(signal(0x31, event=1))), range_of("b", 28, SCTE35_OUT=digits(signal(0x30, 6, event=2))),
        range_of("b", 28, 17, SCTE35_IN=digits(signal(0x31, event=2))), range_of("o", 24, 17, SCTE35_IN=digits(signal(0x35, event=3))))),
    Style("dr-ad-blocks", breaks=((12, 14), (14, 17)), ranges=(
        range_of("p", 24, SCTE35_CMD=digits(signal(0x44, 4))), range_of("d", 28, SCTE35_CMD=digits(signal(0x46, 6))))),
    Style("dr-cmd-time-signal", ranges=(range_of("a", 24, SCTE35_CMD=digits(START_34)), range_of("b", 34, SCTE35_CMD=digits(END_35)))),
    Style("dr-in-with-dates", is_known=True, ranges=(
        range_of("1001", 24, PLANNED_DURATION=20, SCTE35_OUT=digits(OUT_10)),
        range_of("1001", 24, 17, END_DATE=f'"{instant(34)}"', SCTE35_IN=digits(IN)))),
    Style("dr-in-comes-early", is_known=True, ranges=(
        range_of("1001", 24, PLANNED_DURATION=20, SCTE35_OUT=digits(OUT)), range_of("1001", place=17, SCTE35_IN=digits(IN)))),
    Style("dr-in-has-its-own-start", ranges=(
        range_of("1001", 24, PLANNED_DURATION=20, SCTE35_OUT=digits(OUT)), range_of("1001-in", 34.3, 17, SCTE35_IN=digits(IN)))),
    Style("dr-duration-comes-later", is_known=True, ranges=(
        range_of("1001", 24, SCTE35_OUT=digits(OUT)), range_of("1001", place=17, DURATION=10))),
    Style("dr-announced", is_known=True, ranges=(range_of("1001", 24, shown=9, PLANNED_DURATION=10, SCTE35_OUT=digits(OUT_10)),)),
    Style("dr-announced-off-by-300ms", ranges=(range_of("1001", 24.3, shown=9, PLANNED_DURATION=10, SCTE35_OUT=digits(OUT_10)),)),
    Style("dr-announced-time-signal", ranges=(range_of("1001", 24, shown=9, PLANNED_DURATION=10, SCTE35_OUT=digits(START_34)),)),
    Style("dr-announced-two", breaks=((12, 15), (20, 23)), ids=("a", "b"), ranges=(
        range_of("b", 40, shown=9, PLANNED_DURATION=6, SCTE35_OUT=digits(signal(0x34, event=2))),
        range_of("a", 24, shown=9, PLANNED_DURATION=6, SCTE35_OUT=digits(signal(0x34, event=1))))),
    Style("dr-cancelled-within", breaks=((12, 15),), ranges=(
        range_of("1001", 24, PLANNED_DURATION=10, SCTE35_OUT=digits(OUT_10)), range_of("c", 24, 15, SCTE35_CMD=digits(insert(is_cancelled=True))))),
    Style("dr-segmentation-cancelled", breaks=(), ranges=(
        range_of("1001", 24, shown=9, PLANNED_DURATION=10, SCTE35_OUT=digits(START_34)),
        range_of("1001c", 24, shown=11, SCTE35_CMD=digits(signal(0x34, is_cancelled=True))))),
    Style("dr-overlay", is_known=True, breaks=(), ranges=(range_of("1001", 24, PLANNED_DURATION=10, SCTE35_OUT=digits(signal(0x38, 10))),)),
    Style("dr-promo", is_known=True, breaks=(), ranges=(range_of("1001", 24, PLANNED_DURATION=10, SCTE35_OUT=digits(signal(0x3C, 10))),)),
    Style("dr-and-cue", ids=("1001",), is_known=True, tags={12: ["#EXT-X-CUE-OUT:10"], 17: ["#EXT-X-CUE-IN"]}, ranges=(
        range_of("1001", 24, PLANNED_DURATION=10, SCTE35_OUT=digits(OUT_10)),)),
    Style("dr-time-signal-and-cue", ids=("1001",), tags={12: ["#EXT-X-CUE-OUT:10"], **within("#EXT-X-CUE-OUT-CONT:{}"), 17: ["#EXT-X-CUE-IN"]}, ranges=(
        range_of("1001", 24, PLANNED_DURATION=10, SCTE35_OUT=digits(START_34)),)),
    Style("dr-cmd-time-signal-and-cue-without-duration", ids=("a",), tags={12: ["#EXT-X-CUE-OUT"], 17: ["#EXT-X-CUE-IN"]}, ranges=(
        range_of("a", 24, SCTE35_CMD=digits(START_34)),)),
    Style("dr-lasts-longer-by-duration", ids=("1001",), is_known=True, ranges=(
        range_of("1001", 24, PLANNED_DURATION=6, SCTE35_OUT=digits(OUT)), range_of("1001", place=13, DURATION=10))),
    Style("dr-lasts-longer-by-end-date", ids=("1001",), ranges=(
        range_of("1001", 24, PLANNED_DURATION=6, SCTE35_OUT=digits(START_34)), range_of("1001", 24, 14, END_DATE=f'"{instant(34)}"', SCTE35_IN=digits(END_35)))),
    Style("dr-lasts-longer-once-it-is-over", ids=("1001",), ranges=(
        range_of("1001", 24, PLANNED_DURATION=10, SCTE35_OUT=digits(OUT)), range_of("1001", place=22, DURATION=24))),
    Style("dr-start-alone-off-by-a-second", breaks=((12, 17),), ranges=(range_of("1001", 23.1, 12, PLANNED_DURATION=10, SCTE35_OUT=digits(OUT_10)),)),
    Style("dr-of-another-kind", is_known=True, tags={12: ["#EXT-X-CUE-IN"]}, breaks=(), ranges=(range_of("chapter", 24, DURATION=10, X_TITLE='"a, b"'),)),
]
ALL = STYLES + CUES + RANGES


def named(name):
    """The style of this name."""
    return next(it for it in ALL if it.name == name)
