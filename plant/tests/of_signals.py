"""Tests of signals: sections, what each style means, and that exactly the segments that it means are replaced."""
import base64
import json
import random
import re
import shutil
import subprocess
import sys
from datetime import datetime

from sections import crc, digits, letters, section, segmentation, splice_insert, time_signal
from styles import ALL, STYLES, Style, insert, named, range_of, signal
from tools import BEGIN, PLANT, PYTHON, apart, free_port, get, instant, put

sys.path.insert(0, PLANT)
from adsplice_plant import packaged, signals, spelling, splice, unseen  # noqa: E402
from adsplice_plant.splice import Kind, Message  # noqa: E402
from adsplice_plant.translator import Translator  # noqa: E402
from adsplice_rules.channel import Channel, decide, refreshed  # noqa: E402
from adsplice_rules.uris import base_of  # noqa: E402

NEEDS = ()
SECOND = 10**9
BASE = "http://origin.example/ch/index.m3u8"


# ---- sections

# Samples of the standard (ANSI/SCTE 35, 14.1, 14.2 and 14.4), and what they say of a break.
SAMPLES = (
    ("FC3034000000000000FFFFF00506FE72BD0050001E021C435545494800008E7FCF0001A599B00808000000002CA0A18A3402009AC9D17E",
     [Message(Kind.BEGIN, 0x34, 0x4800008E, 307 * SECOND, "000000002CA0A18A", 2)]),
    ("FC302F000000000000FFFFF014054800008F7FEFFE7369C02EFE0052CCF500000000000A0008435545490000013562DBA30A",
     [Message(Kind.BEGIN, None, 0x4800008F, 5_426_421 * 100_000 // 9)]),
    ("FC3048000000000000FFFFF00506FE7A4D88B60032021743554549480000187F9F0808000000002CCBC344110000021743554549480000197F9F0808000000002CA4DBA01000009972E343",
     [Message(Kind.OTHER, 0x11, 0x48000018, None, "000000002CCBC344"), Message(Kind.OTHER, 0x10, 0x48000019, None, "000000002CA4DBA0")]))


def test_samples_of_the_standard(room):
    for text, owed in SAMPLES:
        data = bytes.fromhex(text)
        of_urls = base64.urlsafe_b64encode(data).decode().rstrip("=")
        assert crc(data) == 0 and splice.read(f"0x{text}").messages == splice.read(letters(data)).messages == owed, splice.read(f"0x{text}")
        assert splice.read(of_urls).messages == owed and ("-" in of_urls or "_" in of_urls or of_urls == letters(data).rstrip("=")), of_urls


def test_messages_of_sections(room):
    def said(data):
        return splice.read(digits(data)).messages

    assert said(splice_insert(7, False)) == [Message(Kind.END, None, 7)]
    assert said(splice_insert(7, seconds=0)) == [Message(Kind.BEGIN, None, 7)]
    assert said(splice_insert(7, seconds=1.5, components=[1, 2], ticks=5, length=0xFFF)) == [Message(Kind.BEGIN, None, 7, 1_500_000_000)]
    assert said(splice_insert(7, seconds=0, avail=(2, 3))) == [Message(Kind.BEGIN, None, 7, None, "", 2, 3)]
    assert said(time_signal(segmentation(7, 0x34, part=(1, 4)))) == [Message(Kind.BEGIN, 0x34, 7, None, "", 1, 4)]
    assert said(splice_insert(7, is_cancelled=True)) == [Message(Kind.CANCEL, None, 7)]
    assert said(time_signal(segmentation(7, 0x22, 90_000), length=0xFFF)) == [Message(Kind.BEGIN, 0x22, 7, 90_000 * SECOND, "", 1, 1)]
    assert said(time_signal(segmentation(7, 0x47, components=[1], is_restricted=True))) == [Message(Kind.END, 0x46, 7)]
    assert said(time_signal(segmentation(7, 0x30), segmentation(8, 0x34), segmentation(6, 0x35), segmentation(5, 0x31, is_cancelled=True))) == [
        Message(Kind.CANCEL, None, 5), Message(Kind.END, 0x34, 6), Message(Kind.BEGIN, 0x34, 8, None, "", 1, 1), Message(Kind.BEGIN, 0x30, 7, None, "", 1, 1)]
    assert said(time_signal(bytes([0, 8, *b"CUEI", 0, 0, 0, 1]), bytes([2, 4, *b"ABCD"]), segmentation(7, 0x50))) == [Message(Kind.OTHER, 0x50, 7)]
    assert [splice.read(digits(section(it, b""))).name() for it in (0, 7, 9)] == ["splice_null", "bandwidth_reservation", "command of type 9"]
    assert Message(Kind.END, 0x34, 7).name() == "Provider Placement Opportunity End" and Message(Kind.OTHER, 0x99, 7).name() == "segmentation type 0x99"


def test_sections_that_do_not_read(room):
    whole = splice_insert(7, seconds=10)
    for text, owed in (("0x" + "F" * 9000, "a section has at most 4098 bytes"), ("/DA!", "neither hexadecimal after 0x nor base64"), ("", "it has 0 bytes"),
                       (digits(whole)[:-2], "its section_length says"), (digits(bytes([*whole[:4], 0x80, *whole[5:]])), "it is encrypted"),
                       (digits(section(5, whole[14:20])), "it ends within its fields"), (digits(section(4, b"", length=0xFFF)), "has no stated length"),
                       (digits(section(6, b"\x7f", bytes([2, 30, *b"CUEI"]))), "it ends within a descriptor"),
                       (digits(section(6, b"\x7f", bytes([2, 5, *b"CUEI", 0]))), "a segmentation descriptor ends within its fields"),
                       (digits(section(6, b"\x7f", segmentation(1, 0x34)[:-1] + b"")), "it ends within a descriptor")):
        try:
            found = splice.read(text)
        except splice.Unread as fault:
            found = str(fault)
        assert owed in str(found), (text[:60], found)


def test_written_sections_are_read_again(room):
    assert splice.insert_text(1001, 10 * SECOND) == digits(splice_insert(1001, seconds=10, is_immediate=True))
    assert splice.insert_text(2**32 - 1, None) == digits(splice_insert(2**32 - 1, is_immediate=True))
    assert crc(bytes.fromhex(splice.insert_text(5, 86_400 * SECOND)[2:])) == 0


# ---- sections against another reader

FIELDS = ("scte35.splice_command_type", "scte35_si.event_id", "scte35_si.cancelled", "scte35_si.out_of_net", "scte35_si.break.duration",
          "scte35.splice_descriptor.event_id", "scte35.splice_descriptor.cancel_indicator", "scte35.splice_descriptor.segmentation_duration",
          "scte35.splice_descriptor.segmentation_type_id", "scte35.splice_descriptor.upid", "scte35_si.avail", "scte35_si.avails_expected",
          "scte35.splice_descriptor.segment_num", "scte35.splice_descriptor.segments_expected")


def random_section(source):
    """A section of random fields: a splice_insert, or a time_signal with one segmentation descriptor."""
    components = None if source.random() < 0.7 else [source.randrange(256) for _ in range(source.randrange(1, 4))]
    event, is_cancelled = source.choice((0, 1, 2**32 - 1, source.randrange(2**32))), source.random() < 0.1
    part = source.choice(((0, 0), (1, 3), (source.randrange(256), source.randrange(256))))
    if source.random() < 0.5:
        seconds = source.choice((None, 0, 10, source.randrange(90_000)))
        return splice_insert(event, source.random() < 0.5, seconds, source.choice((None, 1, 2**33 - 1)), is_cancelled, source.random() < 0.5, components, avail=part)
    seconds, upid = source.choice((None, 0, 30, source.randrange(2**23))), bytes(source.choice(b"ABCxyz09") for _ in range(source.randrange(20)))
    return time_signal(segmentation(event, source.randrange(256), seconds, source.choice((1, 8)), upid, is_cancelled, components, source.random() < 0.5, part),
                       ticks=source.choice((None, 5)))


def told_by_tshark(room, sections):
    """What tshark says of sections: for each its values of FIELDS."""
    path = room.write("sections.txt", "".join(f"000000 {data.hex(' ')}\n" for data in sections))
    subprocess.run(["text2pcap", "-q", "-l", "147", path, f"{room.path}/sections.pcap"], check=True, capture_output=True)
    done = subprocess.run(["tshark", "-r", f"{room.path}/sections.pcap", "-o", 'uat:user_dlts:"User 0 (DLT=147)","scte35","0","","0",""', "-T", "fields",
                           "-E", "separator=|", *(word for name in FIELDS for word in ("-e", name))], check=True, capture_output=True, text=True)
    return [line.split("|") for line in done.stdout.splitlines()]


def owed_by_tshark(values):
    """The message of a section of which tshark says these values."""
    command, event, cancelled, out, ticks, event_2, cancelled_2, ticks_2, kind, upid, *parts = values
    avail, avails, part, parts = (int(it or "0", 0) for it in parts)
    if command == "0x05":
        is_out = out in ("1", "True")
        duration = int(ticks or "0", 0) * 100_000 // 9 if is_out else 0
        said = Message(Kind.BEGIN if is_out else Kind.END, None, int(event, 16), duration or None, "", avail, avails)
        return Message(Kind.CANCEL, None, int(event, 16)) if cancelled in ("1", "True") else said
    if cancelled_2 in ("1", "True"):
        return Message(Kind.CANCEL, None, int(event_2, 16))
    kind, upid = int(kind, 16), upid.encode().hex().upper()
    if kind in splice.SPANS:
        return Message(Kind.BEGIN, kind, int(event_2, 16), (int(ticks_2 or "0", 0) * 100_000 // 9) or None, upid, part, parts)
    return Message(Kind.END, kind - 1, int(event_2, 16), None, upid) if kind - 1 in splice.SPANS else Message(Kind.OTHER, kind, int(event_2, 16), None, upid)


def test_random_sections_are_read_as_tshark_reads_them(room):
    seed = random.randrange(10**9)
    source = random.Random(seed)
    sections = [random_section(source) for _ in range(1000)]
    told = told_by_tshark(room, sections)
    assert len(told) == len(sections), (seed, len(told))
    wrong = [(digits(data), values) for data, values in zip(sections, told) if splice.read(digits(data)).messages != [owed_by_tshark(values)]]
    assert not wrong, (seed, len(wrong), wrong[0])


test_random_sections_are_read_as_tshark_reads_them.needs = ("tshark",)


# ---- styles

def listed(text):
    """A packager's list with the numbers and the instants that the feed gives it: here the packager's own."""
    found, at = packaged.read(spelling.lines_of(text.encode(), set())), None
    for it in found.segments:
        it.number, it.discontinuity = it.own, it.discontinuities
        it.begins = at = it.stated if it.stated is not None else at
        at = None if at is None else at + it.duration
    return found


def fallback(seconds):
    """A fallback of so many seconds in pieces of 2 s."""
    segments = [{"uri": f"http://ads.example/f{n}.ts", "duration": "2"} for n in range(seconds // 2)]
    return json.dumps({"fallback": {"ads": [{"segments": segments}]}}).encode()


class Run:
    """A sequence of lists through the translator, and then to adsplice by its rules: what was marked, told, and passed as it was.
    The feed `starts_again` before each list, or `loses` its state on disk before the list of a place."""

    def __init__(self, texts, pod=40, starts_again=False, loses=None, **settings):
        self.translator, self.told, self.unchanged, self.known, self.written = Translator(**settings), [], [], [], []
        channel = decide(Channel(base_of(BASE)), fallback(pod))
        for place, text in enumerate(texts):
            if starts_again:
                self.start_again(settings)
            if place == loses:
                self.translator = Translator(**settings)
            found = listed(text)
            said = self.translator.take(found)
            self.told += [f"{it.who} {it.word}: {it.text}" for it in said.told]
            self.known += [it.id for it in said.known]
            self.unchanged.append(said.ranges is None)
            self.written.append(said.ranges)
            channel = refreshed(channel, text.encode() if said.ranges is None else packaged.write(found, said.ranges))
        self.marks = [(it.segment.number, it.mark.id) for it in channel.history if it.mark]

    def start_again(self, settings):
        """The feed was started anew: its translator has what was kept."""
        kept = json.loads(json.dumps(self.translator.kept()))
        self.translator = Translator(**settings)
        self.translator.resume(kept)
        assert json.loads(json.dumps(self.translator.kept())) == kept

    def numbers(self):
        """The segments that are replaced."""
        return [number for number, _ in self.marks]

    def ids(self):
        """The breaks that replace them."""
        return tuple(dict.fromkeys(name for _, name in self.marks))


def wrong_styles(step, offset, starts_again, loses):
    """What isn't as it has to be with the styles whose lists come so: `step` segments at a time from `offset` on."""
    wrong = []
    for style in ALL if step == 1 else [it for it in ALL if it.begun == 2]:
        run = Run(style.lists(step, offset), style.pod, starts_again, loses or None)
        is_right = run.numbers() == style.filled() and run.ids() == (style.ids or run.ids()) and len(run.ids()) == len(style.breaks)
        if not is_right or step == 1 and not loses and style.is_known != all(run.unchanged):
            wrong.append((style.name, run.numbers(), run.ids(), run.told, style.is_known, all(run.unchanged)))
    return wrong


def check_styles(*ways):
    """Looks at all styles in each of the `ways`: in processes of their own, which leave the other tests their time."""
    running = [subprocess.Popen([PYTHON, __file__, *map(str, way)], stdout=subprocess.PIPE, text=True) for way in ways]
    found = [it.communicate()[0] for it in running]
    assert found == ["right\n"] * len(ways), "\n".join(found)


def test_each_style_replaces_what_it_means_and_passes_as_it_is_if_adsplice_knows_it(room):
    assert len(STYLES) == 18 and len({it.name for it in ALL}) == len(ALL)
    check_styles((1, 0, 0, 0))


def test_each_style_in_every_split_into_lists(room):
    check_styles((2, 1, 0, 0), (5, 4, 0, 0))
    check_styles((3, 0, 0, 0), (5, 1, 0, 0))


def test_each_style_with_a_feed_that_starts_again_before_each_list(room):
    check_styles((1, 0, 1, 0))


def test_each_style_with_a_feed_that_loses_its_state(room):
    check_styles(*((1, 0, 0, place) for place in (11, 14, 18)))


def test_two_announced_breaks_that_touch_are_two_though_the_first_is_short(room):
    import drawn
    case = drawn.Case(random.Random(0))
    case.begins, case.breaks, case.listed_count, case.has_each_time = [2000 * n for n in range(drawn.COUNT + 1)], [(14, 15), (15, 20)], 6, True
    for turn, (begin, by) in enumerate(((14, 800), (15, -800))):  # (each states a time that is 0.8 s beside its segment: they are 0.4 s apart)
        section = digits(splice_insert(1001 + turn, True, None))
        case.ranges.append((f'ID="b{turn}",START-DATE="{instant((2000 * begin + by) / 1000)}",SCTE35-CMD={section}', begin, begin - 3, 20))
    case.ranges.append((f'ID="in",START-DATE="{instant(40)}",SCTE35-CMD={digits(splice_insert(1002, False, None))}', 20, None, 20))
    run = Run(case.lists(), 60, False)
    assert (run.numbers(), len(run.ids())) == ([14, 15, 16, 17, 18, 19], 2), (run.numbers(), run.ids())


def test_a_drawn_case_that_once_went_wrong_is_right(room):
    """Two breaks touch. The second one is announced in the list that has the first one's segment, 0.95 s after what the first one states."""
    import drawn
    assert drawn.wrong_with(753300, 3) is None


def test_drawn_sequences_replace_what_they_mean(room):
    seed = random.randrange(10**6)
    print(f"plant: sequences of seed {seed} (plant/tests/drawn.py {seed} 40)", flush=True)
    done = subprocess.run([PYTHON, f"{PLANT}/tests/drawn.py", str(seed), "40"], capture_output=True, text=True, check=False)
    assert done.returncode == 0, done.stdout + done.stderr


# ---- what is told

def told(style, **settings):
    """What is told of a style's sequence, without the words that are the same each time."""
    return Run(style.lists(), style.pod, **settings).told


def test_breaks_are_told_by_the_names_of_the_standard(room):
    assert told(named("dr-time-signal-34")) == [
        f"breaks/1001 Begins: at {instant(24)}, planned for 10 s (Provider Placement Opportunity Start)",
        f"breaks/1001 Ends: at {instant(34)}, after 10 s (Provider Placement Opportunity Start)"]
    assert told(named("dr-cancelled")) == [f"breaks/1001 Begins: at {instant(24)}, planned for 10 s (splice_insert)",
                                           "breaks/1001 Cancelled: before it began (splice_insert, event 1001)"]
    assert told(named("cue-without-duration"))[0] == f"breaks/cue-12 Begins: at {instant(24)}, without a duration (a tag without a section)"
    assert told(named("dr-program-start")) == ["signals Ignored: segment 12: Program Start (event 1001) is of no break"]
    assert told(named("dr-overlay")) == ["signals Ignored: segment 12: Provider Overlay Placement Opportunity Start (event 1001) is of no break"]
    assert told(named("dr-promo")) == ["signals Ignored: segment 12: Provider Promo Start (event 1001) begins no break by the settings"]
    assert told(named("oatcls-encrypted")) == ["signals Unread: segment 12: EXT-OATCLS-SCTE35: a section that doesn't read: it is encrypted (encrypted_packet is 1)"]
    assert told(named("placement-opportunity")) == [
        "signals Untranslated: the playlist signals by EXT-X-PLACEMENT-OPPORTUNITY, a style that isn't translated: it begins no break"]
    assert told(named("dr-ads-within-an-opportunity"))[1] == "signals Ignored: segment 12: Provider Advertisement Start (event 1) is within the break o"
    assert "signals Ignored: segment 12: splice_insert says that it lasts 3155760000 s, over a day: taken as no duration" in told(named("cue-of-a-century"))


def tagged(tags, last):
    """What the list of segments of 2 s up to `last` says, of which some have `tags` before them by their numbers."""
    lines = [f"#EXTM3U\n#EXT-X-VERSION:3\n#EXT-X-TARGETDURATION:2\n#EXT-X-MEDIA-SEQUENCE:{last - 5}"]
    for number in range(last - 5, last + 1):
        lines += [*tags.get(number, []), f"#EXT-X-PROGRAM-DATE-TIME:{instant(2 * number)}\n#EXTINF:2,\ns{number}.ts"]
    return listed("\n".join([*lines, ""]))


def known_after(tags, last=12):
    """When the breaks begin and end that are known after lists up to `last`, in seconds."""
    translator, zero = Translator(), listed(f"#EXTM3U\n#EXT-X-TARGETDURATION:2\n#EXT-X-PROGRAM-DATE-TIME:{instant(0)}\n#EXTINF:2,\na.ts\n").segments[0].begins
    for newest in range(6, last + 1):
        translator.take(tagged(tags, newest))
    return [((it.start - zero) // SECOND, (it.end() - zero) // SECOND) for it in translator.breaks.known]


def test_a_begin_that_is_cancelled_before_the_same_segment_begins_nothing(room):
    begins, cancels = (f"#EXT-OATCLS-SCTE35:{letters(data)}" for data in (insert(seconds=6), insert(is_cancelled=True)))
    assert known_after({10: [begins]}) == known_after({10: [cancels, begins]}) == [(20, 26)]
    assert known_after({10: [begins, cancels]}) == known_after({10: [begins, "#EXT-X-CUE-OUT:6", cancels]}) == []


def test_a_repeated_begin_of_the_same_event_with_a_longer_duration_extends_the_break(room):
    begins, longer, shorter = (f"#EXT-OATCLS-SCTE35:{letters(insert(seconds=seconds))}" for seconds in (6, 12, 4))
    assert known_after({10: [begins], 11: [longer]}) == [(20, 32)]
    assert known_after({10: [begins], 11: [shorter]}) == known_after({10: [begins], 11: [begins]}) == [(20, 26)]
    assert known_after({10: [begins], 12: ["#EXT-X-CUE-OUT:12"]}) == [(20, 26)], "a tag without a section says nothing of the event"


def test_each_message_is_told_once_in_all_renditions(room):
    for style in STYLES:
        one = told(style)
        translator, two = Translator(), []
        for text in style.lists():
            two += [f"{it.who} {it.word}: {it.text}" for name in "ab" for it in translator.take(listed(text), name).told]
        assert one == two and len(set(two)) == len(two), (style.name, one, two)


def test_a_list_without_instants_is_told_once(room):
    texts = [re.sub("#EXT-X-PROGRAM.*\n", "", it) for it in named("cue-no-in").lists()]
    assert Run(texts).told == ["signals NoTimes: no segment has an instant, so no break of this playlist is entered"]


# ---- what adsplice doesn't see by itself

UNSEEN = (
    ("#EXT-X-CUE-OUT:10", "EXT-X-CUE-OUT begins a break of 10 s"), ("#EXT-X-CUE-OUT", "EXT-X-CUE-OUT begins a break"),
    (f"#EXT-OATCLS-SCTE35:{letters(insert(seconds=10))}", "EXT-OATCLS-SCTE35 begins a break of 10 s of event 1001"),
    (f'#EXT-X-SCTE35:TYPE=0x34,CUE="{letters(signal(0x34, 10))}",CUE-OUT=YES',
     "EXT-X-SCTE35 begins a break of 10 s of event 1001 (Provider Placement Opportunity Start)"),
    (f"#EXT-X-SPLICEPOINT-SCTE35:{letters(insert())}", "EXT-X-SPLICEPOINT-SCTE35 begins a break of event 1001"),
    ('#EXT-X-CUE:TYPE="SpliceOut",ID="7",DURATION=10.0', "EXT-X-CUE begins a break of 10 s of event 7"),
    (f'#EXT-X-DATERANGE:ID="c",SCTE35-CMD={digits(insert())}', "SCTE35-CMD of c begins a break of event 1001"))
# Beside a break that adsplice knows.
BESIDE = (
    (f'#EXT-X-DATERANGE:ID="c",SCTE35-CMD={digits(insert(is_cancelled=True))}', "SCTE35-CMD of c cancels the break of event 1001"),
    (f'#EXT-X-DATERANGE:ID="c",SCTE35-CMD={digits(signal(0x35))}', "SCTE35-CMD of c ends a break of event 1001 (Provider Placement Opportunity End)"))
KNOWN = f'#EXT-X-DATERANGE:ID="b",START-DATE="{instant(24)}",SCTE35-OUT={digits(insert())}'


def test_each_style_is_told_that_adsplice_does_not_see_by_itself(room):
    for line, owed in UNSEEN:
        assert [text for _, text in unseen.unseen(["#EXTM3U", line, line])] == [f"line 2: {owed}: {unseen.BY_ITSELF}"], line
        assert unseen.unseen([KNOWN, line]) == [], line
    for line, owed in BESIDE:
        assert [text for _, text in unseen.unseen([KNOWN, line])] == [f"line 2: {owed}: {unseen.BY_ITSELF}"] and unseen.unseen([line]) == [], line
    for line, owed in (("#EXT-X-PLACEMENT-OPPORTUNITY", "EXT-X-PLACEMENT-OPPORTUNITY signals in a style that nobody here translates: it begins no break"),
                       ("#EXT-OATCLS-SCTE35:/DA0", "EXT-OATCLS-SCTE35: a section that doesn't read: it has 3 bytes, and a section has at least 20"),
                       ('#EXT-X-DATERANGE:ID="c",SCTE35-CMD=0xFC', "SCTE35-CMD of c: a section that doesn't read: it has 1 bytes, and a section has at least 20")):
        assert unseen.unseen([line]) == [(signals.style_of(line), f"line 1: {owed}")], line
    for line in ("#EXTINF:2,", "#EXT-X-KEY:METHOD=NONE", f'#EXT-X-DATERANGE:ID="p",SCTE35-CMD={digits(signal(0x10))}', "#EXT-X-DISCONTINUITY", "#EXT-X-ASSET:CAID=0x1",
                 "#EXT-X-CUE-IN", "#EXT-X-CUE-OUT-CONT:4/10", f"#EXT-OATCLS-SCTE35:{letters(signal(0x10))}", "s0.ts", "# a comment on CUE-OUT", KNOWN):
        assert unseen.unseen([line]) == [], line


# ---- settings

def test_types_may_be_named(room):
    promo, start = named("dr-promo"), named("dr-time-signal-34")
    assert Run(promo.lists(), types=frozenset({0x3C})).numbers() == start.filled()
    assert Run(start.lists(), types=frozenset({0x36})).numbers() == []
    assert Run(start.lists(), types=frozenset({0x36, 0x34})).numbers() == start.filled()
    enhanced = named("cue-enhanced-time-signal")
    assert Run(enhanced.lists(), types=frozenset({0x36})).numbers() == [], "the section beside EXT-X-CUE-OUT says which type it is"
    assert Run(named("cue-elemental").lists(), types=frozenset({0x36})).numbers() == start.filled(), "this one has no section"


def test_starts_may_stay_as_they_are(room):
    style = named("dr-insert-off-by-300ms")
    run = Run(style.lists(), aligns=False)
    assert run.numbers() == [] and all(run.unchanged)


# ---- renditions

def test_renditions_are_written_equally_whichever_comes_first(room):
    source, wrong = random.Random(5), []
    for style in STYLES:
        translator, lists, written = Translator(), style.lists(), {}
        turns = [(place, name) for name, late in (("a", 0), ("b", 0), ("c", 1)) for place in range(len(lists) - late)]
        for place, name in sorted(turns, key=lambda it: (it[0] + (it[1] == "c"), source.random())):
            said = translator.take(listed(lists[place]), name)
            written.setdefault(name, []).append(said.ranges)
        channels = {}
        for name, ranges in written.items():
            channel = decide(Channel(base_of(BASE)), fallback(style.pod))
            for text, lines in zip(lists, ranges):
                channel = refreshed(channel, text.encode() if lines is None else packaged.write(listed(text), lines))
            channels[name] = [(it.segment.number, it.mark.id) for it in channel.history if it.mark]
        if channels["a"] != channels["b"] or channels["c"] != channels["a"] or [it[0] for it in channels["a"]] != style.filled():
            wrong.append((style.name, channels))
    assert not wrong, "\n".join(map(str, wrong))


def test_renditions_whose_instants_differ_a_little_have_one_date_range(room):
    style, translator = named("cue-elemental"), Translator()
    for text in style.lists():
        ranges = [translator.take(listed(it), name).ranges for name, it in (("video", text), ("audio", re.sub(r"(DATE-TIME:.*)\.000Z", r"\1.011Z", text)))]
        assert ranges[0] == ranges[1]


# Date ranges that begin so far beside a segment of the picture that another segment of the sound is nearest.
NEAR_ANOTHER = ("dr-insert-off-by-300ms", "dr-start-alone-off-by-a-second")


def cut_elsewhere(text, offset):
    """The list `text` of a rendition whose segments begin `offset` seconds later; its tags stand before the segments before which they were."""
    def moved(it):
        return instant((datetime.fromisoformat(it[0][:-1]) - BEGIN.replace(tzinfo=None)).total_seconds() + offset)
    return re.sub(r"(?<=PROGRAM-DATE-TIME:)\S+", moved, text)


def wrong_cuts(offset, starts_again=False):
    """The styles of which other segments are replaced in a rendition of pictures (`v`), or in one of sound (`a`) whose segments begin `offset`
    seconds later, than their signals mean. The one and the other come first by turns."""
    wrong = []
    for style in [it for it in ALL if it.name not in NEAR_ANOTHER]:
        translator, starts = Translator(), {}
        channels = {name: decide(Channel(base_of(BASE)), fallback(style.pod)) for name in "va"}
        for turn, text in enumerate(style.lists()):
            for name in "va" if turn % 2 else "av":
                if starts_again:
                    kept, translator = json.loads(json.dumps(translator.kept())), Translator()
                    translator.resume(kept)
                own = text if name == "v" else cut_elsewhere(text, offset)
                found = listed(own)
                lines = translator.take(found, name).ranges
                channels[name] = refreshed(channels[name], own.encode() if lines is None else packaged.write(found, lines))
                for it in (packaged.attributes_of(line.partition(":")[2]) for line in lines or []):
                    starts.setdefault((name, it["ID"]), set()).add(packaged.instant_of(it["START-DATE"]))
        marks = {name: [(it.segment.number, it.mark.id) for it in one.history if it.mark] for name, one in channels.items()}
        if marks["v"] != marks["a"] or [number for number, _ in marks["v"]] != style.filled() or any(max(it) - min(it) > SECOND // 10 for it in starts.values()):
            wrong.append((style.name, offset, marks, starts))
    return wrong


@apart
def test_sound_that_is_cut_elsewhere_is_replaced_where_the_picture_is(room):
    wrong = [it for offset in (0.02, 0.15, 0.95, -0.5) for it in wrong_cuts(offset)] + wrong_cuts(0.5, True)
    assert not wrong, (len(wrong), wrong[:3])


# ---- numbers that are shifted, and what is hostile

def test_numbers_may_be_shifted_between_two_lists(room):
    for style in STYLES:
        translator, known = Translator(), []
        for turn, text in enumerate(style.lists()):
            found = listed(text)
            for it in found.segments:
                it.number += 100 * turn
            known += translator.take(found).known
        assert len(known) == len(Run(style.lists(), style.pod).known), style.name


def test_a_thousand_breaks_are_one_line(room):
    for texts in ([range_of(f"b{n}", 4 + 0.05 * n, 2, SCTE35_OUT=digits(insert(seconds=1, event=n + 1))) for n in range(1000)],
                  [range_of(f"b{n}", 4 + 2 * n, 2, SCTE35_OUT=digits(signal(0x34, 1, event=n + 1))) for n in range(5000)]):
        run = Run([Style("many", ranges=tuple(texts)).listed(newest) for newest in (4, 5)])
        assert len(run.told) <= 4, run.told
        assert len(run.written[-1] or []) <= 256


def test_tags_of_a_stranger_are_linear(room):
    for line in ('#EXT-X-SCTE35:CUE="' + "A" * 200_000, "#EXT-X-CUE-OUT:" + '"' * 200_000, "#EXT-X-CUE-OUT:" + "A=,B" * 50_000, "#EXT-X-CUE-OUT-CONT:" + "9" * 200_000 + "/1",
                 "#EXT-OATCLS-SCTE35:" + "/DA" * 70_000, '#EXT-X-DATERANGE:ID="a",SCTE35-OUT=0x' + "FC" * 100_000, "#EXT-X-CUE-OUT:PT" + "1H" * 100_000):
        run = Run([Style("odd", tags={2: [line]}).listed(4)])
        assert run.numbers() in ([], [2, 3, 4]) and len(run.told) <= 3, (line[:40], run.told, run.numbers())


# ---- the built program

def test_each_style_through_the_built_program(room):
    port, wrong = free_port(), []
    room.adsplice(port)
    at = f"http://127.0.0.1:{port}/channels/style"
    for style in ALL:
        assert put(at, json.dumps({"base": BASE}).encode()) == 201 and put(f"{at}/decisions", fallback(style.pod)) == 204
        translator, shown = Translator(), set()
        for text in style.lists():
            found = listed(text)
            said = translator.take(found)
            assert put(f"{at}/origin", text.encode() if said.ranges is None else packaged.write(found, said.ranges)) == 204, (style.name, said.ranges)
            shown |= set(re.findall(r"/s(\d+)\.ts$", get(f"{at}/live.m3u8")[1], re.M))
        replaced = sorted(set(range(style.begun + 1 - min(8, style.begun + 1), style.newest + 1)) - {int(it) for it in shown})
        if replaced != style.filled():
            wrong.append((style.name, replaced))
        assert put(at, b"", "DELETE") == 204
    assert not wrong, "\n".join(map(str, wrong))


test_each_style_through_the_built_program.needs = ("program",)


if __name__ == "__main__":
    print("\n".join(map(str, wrong_styles(*map(int, sys.argv[1:])))) or "right")
