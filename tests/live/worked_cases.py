"""Cases of live channels that are rows of tables of worked values (crates/worked_examples): what a channel owes after events,
which playlist may follow which, and what a decision file says.

A URI is a number there. It is a pod's from 1,000 to 4,999, and any other is the origin's. What is answered to each event, and written
after it, is what the definitions give for the events up to it, as Python computes them. The prover holds the last one against the row.
"""
import json

from events import TOLERANCE, Case
from playlists import AD
from tables import computed, fault, rows

ORIGIN = "http://origin.example/ch/"
FIVE = computed("worked_examples", "Channels", "five")


def after(old, new):
    """One playlist after another one."""
    return TOLERANCE, (("refreshed", new), ("refreshed", old))


def by_name(name, *given):
    return computed("worked_examples", "Channels", name, *given)


# Tables whose rows are events, the newest of which stands first.
EVENTS = (
    "Channels.BreaksAreFilled", "Channels.SeveralAreFilled", "Channels.WindowsGoOn", "Channels.HeadersAreOwed", "Channels.TypesAreOwed",
    "Channels.PodsAreKept", "Channels.StatesAreKept", "Paced.BreaksGoThrough", "Paced.PodsGoOnWithRuns", "Paced.NothingIsShownAtOnce",
    "Paced.InstantsCount", "Paced.TimesAreReckoned", "Paced.RestsAreWritten", "Paced.DateRangesComeBack", "Paced.PodsGo",
    "Paced.FallbacksStay", "Paced.FallbacksFillEach", "Paced.LastBreaksAreLeft", "Paced.OwnPodsComeFirst", "Long.LongRunsAreWritten")
# The tolerance and the events of each row.
TABLES = {
    **{table: lambda events: (TOLERANCE, events) for table in EVENTS},
    "Channels.TolerancesCount": lambda it: it,
    "Channels.LastNumbersAreRefused": lambda it: (TOLERANCE, (("refreshed", it[1]), *it[0])),
    "Channels.PlaylistsFollow": lambda new: after(FIVE, new),
    "Channels.TypesStay": lambda it: after(*it),
    "Channels.LastSegmentsCount": lambda it: after(*it),
    "Channels.SegmentsStay": lambda segment: after(FIVE, by_name("with_11", segment)),
    "Channels.DiscontinuitiesFollow": lambda number: after(FIVE, by_name("next_window", number)),
    "Channels.EndedStays": lambda new: after({**FIVE, "end_list": True}, new),
    "Paced.UsedPodsStand": lambda it: (TOLERANCE, (("decided", it[1]), *it[0])),
}


# ---- texts

def text(codes):
    return bytes(codes).decode()


def instant(nanos):
    return text(computed("date_times", "Times", "time_text", nanos))


def seconds(nanos):
    return text(computed("fixed_duration", "Duration", "duration_text", nanos))


def uri(codes):
    number, = codes
    series = number // 1000 if number < 5000 else 0
    return f"{AD if series else ORIGIN}{'saxyz'[series]}{number - 1000 * series}.ts"


def date_range(one):
    """What stands after the colon of its tag."""
    said = (("start", 'START-DATE="{}"', instant), ("duration", "DURATION={}", seconds), ("scte35_out", "SCTE35-OUT={}", text),
            ("scte35_in", "SCTE35-IN={}", text))
    return ",".join([f'ID="{text(one["id"])}"', *(form.format(spelled(it)) for field, form, spelled in said for it in one[field][1:])])


def segment_lines(one):
    times = [f"#EXT-X-PROGRAM-DATE-TIME:{instant(at)}" for at in one["program_date_time"][1:]]
    ranges = [f"#EXT-X-BYTERANGE:{it['length']}@{it['offset']}" for it in one["byte_range"][1:]]
    return [*["#EXT-X-DISCONTINUITY"] * one["discontinuities"], *times, f"#EXTINF:{seconds(one['duration'])},{text(one['title'])}", *ranges,
            uri(one["uri"])]


def text_of(playlist):
    """The text of a playlist, as the origin writes it and as it is owed: all references are whole."""
    first = playlist["segments"][0]
    lines = ["#EXTM3U", f"#EXT-X-VERSION:{playlist['version']}", f"#EXT-X-TARGETDURATION:{playlist['target_duration']}",
             f"#EXT-X-MEDIA-SEQUENCE:{first['media_sequence']}",
             f"#EXT-X-DISCONTINUITY-SEQUENCE:{first['discontinuity_sequence'] - first['discontinuities']}",
             *(f"#EXT-X-PLAYLIST-TYPE:{kind.upper()}" for kind, in playlist["playlist_type"][1:]),
             *["#EXT-X-INDEPENDENT-SEGMENTS"] * playlist["independent_segments"],
             *(f"#EXT-X-DATERANGE:{date_range(it)}" for it in playlist["date_ranges"]),
             *(line for it in playlist["segments"] for line in segment_lines(it)), *["#EXT-X-ENDLIST"] * playlist["end_list"]]
    return "\n".join(lines) + "\n"


def can_be_said(playlist):
    """Whether `text_of` says it: its numbers go on, and it has no keys and no initialisation section."""
    shown = playlist["segments"]
    ends = [(it["media_sequence"] + 1, it["discontinuity_sequence"]) for it in shown]
    begins = [(it["media_sequence"], it["discontinuity_sequence"] - it["discontinuities"]) for it in shown]
    return begins[1:] == ends[:-1] and not any(it["keys"] or it["init_section"][1:] for it in shown)


def ads_of(pod):
    return [{"segments": [{"uri": uri(it["uri"]), "duration": seconds(it["duration"])} for it in ad["segments"]]} for ad in pod["ads"]]


def file_of(kind, *said):
    """A decision file."""
    if kind == "Withdraw":
        return json.dumps({"withdraw": text(*said)})
    if kind == "Breaks":
        return json.dumps({"breaks": [{"id": text(break_id), "ads": ads_of(pod)} for break_id, pod in said[0]]})
    return json.dumps({"fallback": {"ads": ads_of(*said)} if said else None})


# ---- events

def told(tolerance, events):
    return computed("channel_spec", "Live", "told", tolerance, events)


def owed(history):
    """The playlist that is owed, if any."""
    return computed("channel_spec", "Live", "owed", history)[1:]


def to_decisions(before, decisions):
    """What a channel of this history answers to decisions."""
    word, *found = computed("pod_store", "Store", "decided", before["store"], decisions)
    return "ok" if word == "Ok" else fault("pod_store", *found).decode()


def to_refresh(tolerance, before, new, playlist):
    """What a channel of the first history answers to a playlist, after which it has the second one."""
    for refusal in computed("channel_spec", "Live", "refusal", tolerance, before, playlist)[1:]:
        return text(computed("channel_spec", "FaultTexts", "refresh_fault_text", refusal))
    items = owed(new)[0]["segments"]
    return f"ok {items[0]['media_sequence']} {len(items)} {len(new['history']) - len(before['history'])}"


def case_of(name, tolerance, events):
    """A channel that is given these events, with its playlist after each."""
    made, histories = Case(name).channel(tolerance=tolerance), [told(tolerance, events[place:]) for place in range(len(events) + 1)]
    for (kind, it), new, before in reversed(list(zip(events, histories, histories[1:]))):
        if kind == "decided":
            made.decide(file_of(*it), to_decisions(before, it))
        else:
            made.refresh(text_of(it), to_refresh(tolerance, before, new, it))
        made.playlist(next(map(text_of, owed(new)), None))
    return made


def case_at(table, number):
    """The case of a row, counted from 1."""
    return case_of(f"{table}, row {number}", *TABLES[table](list(rows(table))[number - 1][0]))


def pod_line(name, pod):
    ads = pod["ads"]
    return f"{name} ads {len(ads)} segments {sum(len(it['segments']) for it in ads)} total {computed('pod_store', 'Pods', 'total', pod)}"


def said_of(kind, *said):
    """What the driver prints of a decision file that is read."""
    if kind == "Breaks":
        return ["decisions", *(pod_line(f"break {text(break_id)}", pod) for break_id, pod in said[0])]
    if kind == "Withdraw":
        return [f"withdraw {text(*said)}"]
    return [pod_line("fallback", *said) if said else "no fallback"]


def files():
    """A case of all decision files of a table."""
    made = Case("decision files")
    for file, (word, it) in rows("Pods.FilesAreRead"):
        made.decisions(bytes(file), *(said_of(*it) if word == "Ok" else [fault("pod_store", it).decode()]))
    return made


def worked_cases():
    """A case for each row that can be said, and one of decision files."""
    given = [(f"{table}, row {place}", *of(it)) for table, of in TABLES.items() for place, (it, _) in enumerate(rows(table), 1)]
    return [files()] + [case_of(*it) for it in given if all(kind == "decided" or can_be_said(playlist) for kind, playlist in it[2])]
