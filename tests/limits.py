"""The limits whose numbers stand in several files. Each has one definition; what the other files say has to agree with it.

A place is a file, and what stands in it: {n} is the number, {n:,} the number as pages write it and {n:_} as code does, {more}
is one more and {less} one less. {mib} are the MiB of as many bytes, {ms} and {s} the milliseconds and seconds of as many
nanoseconds. tests/rules looks that each place says its number, and tests/recipes changes one.
"""
from __future__ import annotations

import os
import re
from typing import NamedTuple

TOP = os.path.dirname(os.path.dirname(os.path.abspath(__file__)))
Place = tuple[str, str]


class Limit(NamedTuple):
    """A limit: what it limits, where it is defined, and the other places."""

    said: str
    definition: Place
    places: tuple[Place, ...]


POD_SEGMENTS = Limit("the segments of a pod", ("crates/pod_store/specs/Limits.antt", "most_pod_segments = {n}\n"), (
    ("crates/pod_store/src/limits.rt", "MAX_POD_SEGMENTS: usize = {n:_};"),
    ("crates/channel_window/src/placing.rt", "window_rest_count store.now rest.now }}\n    ensures few {{ result ≤ {n} }}"),
    ("crates/channel_window/src/placing.rt", "ensures few {{ IfOk result (λ count. count ≤ {n}) }}"),
    ("crates/channel_window/proofs/Sizes.antt", "sum (map segment_count ads) ≤ {n}\n"),
    ("crates/channel_window/proofs/placing/newest_run_place/Invariants.antt", "few : l.items ≤ {n};"),
    ("crates/worked_examples/specs/Pods.antt", "most_of_a_pod = {n}\n"),
    ("plant/adsplice_rules/decisions.py", "MOST_POD_SEGMENTS = {n:_}\n"),
    ("bench/rivals/decisions/src/main.rs", "count <= {n:_})"),
    ("plant/adsplice_plant/filling.py", "MOST_SEGMENTS = {n} "),
    ("docs/decisions.schema.json", "a pod has at most {n:,} segments"),
    ("docs/decisions.schema.json", '"maxItems": {n}, "items": {{ "$ref": "#/definitions/segment" }}'),
    ("docs/DECISION_FILES.md", "a pod has at most {n:,} segments"),
    ("docs/DECISIONS.md", "a pod has at most {n:,} segments"),
    ("README.md", "| A pod | at most {n:,} segments"),
))

DECIDED_BREAKS = Limit("the breaks that have pods by decisions", ("crates/pod_store/specs/Limits.antt", "most_breaks = {n}\n"), (
    ("crates/pod_store/src/limits.rt", "MAX_BREAKS: usize = {n:_};"),
    ("crates/pod_store/wrong/full_at_257.edit", "old: pub const MAX_BREAKS: usize = {n:_};"),
    ("crates/worked_examples/specs/Pods.antt", "at most {n} breaks have pods"),
    ("plant/adsplice_rules/decisions.py", "MOST_DECIDED = {n:_}\n"),
    ("plant/adsplice_plant/breaks.py", "MOST = {n:_}  # breaks known at a time: adsplice decides no more"),
    ("tests/model_faults", '"MOST_DECIDED = {n:_}", "MOST_DECIDED = {less:_}"'),
    ("docs/decisions.schema.json", '"maxItems": {n}, "items": {{ "$ref": "#/definitions/break" }}'),
    ("docs/DECISION_FILES.md", "at most {n:,} in one file"),
    ("docs/operating/ads.md", "than adsplice has room for ({n:,} breaks)"),
    ("docs/operating/faults.md", "more than {n:,} breaks that are still to come"),
    ("docs/SIGNALS.md", "more than {n:,} breaks that aren't over"),
    ("README.md", "at most {n:,} decided breaks"),
))

PLAYLIST_BYTES = Limit("the bytes of a playlist", ("crates/playlist_model/specs/Reading.antt", "  bytes = Some {n};"), (
    ("crates/playlist_model/src/limits.rt", "MAX_BYTES: usize = {n:_};"),
    ("crates/playlist_model/wrong/playlist_has_2000_bytes_at_most.edit", "old: pub const MAX_BYTES: usize = {n:_};"),
    ("crates/playlist_model/wrong_definitions", "old: bytes = Some {n};"),
    ("crates/read_is_writable/specs/Limits.antt", "length text ≤ {n}\n"),
    ("crates/worked_examples/specs/Playlists.antt", "(limited, (Some {n},"),
    ("plant/adsplice_rules/reading.py", "MOST_BYTES = {n:_} "),
    ("plant/adsplice_plant/faults.py", '"P2": "it is longer than {n:,} bytes"'),
    ("docs/CONFORMANCE.md", "at most {n:,} bytes and"),
    ("docs/operating/faults.md", "| `P2 TooLong` | it is longer than {n:,} bytes"),
    ("docs/PROOF.md", "These are {n:,} bytes"),
    ("README.md", "| A media playlist | at most {n:,} bytes"),
))

PLAYLIST_SEGMENTS = Limit("the segments of a playlist", ("crates/playlist_model/specs/Reading.antt", "  segments = Some {n};"), (
    ("crates/playlist_model/src/limits.rt", "MAX_SEGMENTS: u64 = {n:_};"),
    ("crates/playlist_model/wrong/playlist_has_5_segments_at_most.edit", "old: pub const MAX_SEGMENTS: u64 = {n:_};"),
    ("crates/read_is_writable/specs/Limits.antt", "(said_by_lines base (lines text)) ≤ {n}\n"),
    ("crates/worked_examples/specs/Playlists.antt", "Some {n})) ∷ (unlimited"),
    ("plant/adsplice_rules/reading.py", "MOST_SEGMENTS = {n:_}\n"),
    ("plant/adsplice_plant/origin.py", "adsplice takes {n:,} segments"),
    ("plant/adsplice_plant/faults.py", '"P24": "more than {n:,} segments'),
    ("docs/CONFORMANCE.md", "bytes and {n:,} segments"),
    ("docs/operating/channel.md", "60,000 lines or {n:,} segments. It pushes"),
    ("docs/operating/faults.md", "| `P24 TooMany` | more than {n:,} segments"),
    ("docs/PROOF.md", "bytes, {n:,} segments, 64"),
    ("README.md", "bytes, {n:,} segments"),
))

READING, CONNECTIONS, MESSAGES = "crates/playlist_model/specs/Reading.antt", "crates/connections/specs/Limits.antt", "crates/http_messages/specs/Limits.antt"
OTHERS = (
    Limit("the attributes of a tag", (READING, "  attributes = Some {n};"), (
        ("crates/attr_list/src/list.rt", "MAX_ATTRIBUTES: usize = {n};"),
        ("crates/read_is_writable/specs/Limits.antt", "nat_le (length (pieces attributes)) {n}\n"),
        ("plant/adsplice_rules/attributes.py", "MOST_ATTRIBUTES = {n} "),
        ("plant/adsplice_plant/spelling.py", "MOST_ATTRIBUTES = {n} "),
        ("docs/CONFORMANCE.md", "at most {n} attributes in a tag"),
        ("docs/operating/faults.md", "the attribute list doesn't read, or has more than {n} "),
        ("README.md", "{n} attributes a tag"))),
    Limit("the key formats in force", (READING, "  formats = Some {n};"), (
        ("crates/playlist_model/src/limits.rt", "MAX_FORMATS: usize = {n};"),
        ("crates/read_is_writable/specs/Limits.antt", "(said ∷ before))) {n} &&"),
        ("plant/adsplice_rules/keys.py", "MOST_FORMATS = {n} "),
        ("plant/adsplice_plant/faults.py", "keys of more than {n} formats at a time"),
        ("docs/CONFORMANCE.md", "of at most {n} formats"),
        ("docs/operating/faults.md", "keys of more than {n} formats in force"),
        ("README.md", "{n} key formats in force"))),
    Limit("the channels of a process", ("crates/http_edge/specs/Table.antt", "nat_le {n} (length table)"), (
        ("crates/http_edge/src/channels.rt", "MAX_CHANNELS: usize = {n};"),
        ("plant/adsplice_rules/edge.py", "MOST_CHANNELS = {n}\n"),
        ("plant/adsplice_plant/settings.py", "MOST_CHANNELS = {n} "),
        ("plant/adsplice_plant/faults.py", "no room: {n} channels are there"),
        ("docs/DECISIONS.md", "a PUT of the {more}th is 503"),
        ("docs/operating/faults.md", "| 503 | nothing | {n} channels are there"),
        ("docs/operating/capacity.md", "A process has {n} channels"),
        ("README.md", "it would be the {more}th channel"),
        ("README.md", "| A process | at most {n} channels"))),
    Limit("the connections at a time", (CONNECTIONS, "place_count = {n}\n"), (
        ("crates/connections/src/table.rt", "PLACES: usize = {n};"),
        ("docs/ARCHITECTURE.md", "which of the {n} it has"),
        ("docs/DECISIONS.md", "There are {n} places"),
        ("docs/operating/security.md", "{n} connections at a time"),
        ("docs/PROOF.md", "each of the {n} places"),
        ("README.md", "{n} connections at a time"))),
    Limit("the bytes of unfinished requests", (CONNECTIONS, "most_held = {n}\n"), (
        ("crates/connections/src/table.rt", "MAX_HELD: usize = {n:_};"),
        ("docs/DECISIONS.md", "{mib} MiB for unfinished requests"),
        ("docs/operating/security.md", "{mib} MiB over all connections"),
        ("docs/PROOF.md", "would pass {mib} MiB: nothing"),
        ("README.md", "{mib} MiB of unfinished requests"))),
    Limit("the memory of unfinished replies", ("crates/connections/src/table.rt", "MAX_REPLIES: usize = {n:_};\n"), (
        ("docs/DECISIONS.md", "{mib} MiB for unfinished replies"),
        ("docs/operating/security.md", "| memory of unfinished replies | {mib} MiB over all"),
        ("README.md", "keep at most {mib} MiB"))),
    Limit("the time of a connection", (CONNECTIONS, "serving_nanos = {n}\n"), (
        ("crates/connections/src/deadlines.rt", "SERVING_MILLIS: u64 = {ms:_};"),
        ("docs/DECISIONS.md", "\n{s} seconds for the request, from its accept on, and {s} for the reply"),
        ("docs/operating/security.md", "{s} seconds for a request, from its connection's begin, and {s} seconds for its reply"),
        ("README.md", "{s} seconds for a request, and {s} for its reply"))),
    Limit("the bytes of a request's head", (MESSAGES, "head_limit = {n}\n"), (
        ("crates/http_messages/src/head.rt", "MAX_HEAD_BYTES: usize = {n:_};"),
        ("plant/adsplice_rules/edge.py", "MOST_HEAD = {n:_}\n"),
        ("docs/CONFORMANCE.md", "within the {n:,} bytes of a head"),
        ("docs/operating/faults.md", "is longer than {n:,} bytes or"))),
    Limit("the fields of a request", (MESSAGES, "field_limit = {n}\n"), (
        ("crates/http_messages/src/head.rt", "MAX_FIELDS: usize = {n};"),
        ("plant/adsplice_rules/edge.py", "MOST_FIELDS = {n}\n"),
        ("docs/operating/faults.md", "or has more than {n} fields"))),
    Limit("the bytes of a request's body", (MESSAGES, "body_limit = {n}\n"), (
        ("crates/http_messages/src/head.rt", "MAX_BODY_BYTES: u64 = {n:_};"),
        ("plant/adsplice_rules/edge.py", "MOST_BODY = {n:_}\n"))),
    Limit("the reads of an input or a request", ("crates/byte_streams/specs/Fair.antt", "most_reads = {n}\n"), (
        ("crates/byte_streams/src/device.rt", "MAX_READS: u64 = {n:_};"),
        ("tests/run_devices", "MAX_READS = {n:_} "),
        ("docs/DECISIONS.md", "(at most {n:,} reads of"),
        ("docs/operating/faults.md", "{n:,} reads of its input, and no end"),
        ("docs/operating/faults.md", "{n:,} reads and no whole request"),
        ("docs/PROOF.md", "each of {n:,} reads gave bytes"),
        ("docs/PROOF.md", "with its {n:,}th piece"))),
    Limit("the bytes of a break's ID", ("crates/pod_store/specs/Pods.antt", "nat_le (length text) {n} && value_fits"), (
        ("crates/decision_files/src/texts.rt", "MAX_ID_BYTES: usize = {n};"),
        ("plant/adsplice_rules/decisions.py", "len(text.encode()) <= {n}\n"),
        ("docs/DECISION_FILES.md", "1 to {n} bytes, once in a file"),
        ("docs/decisions.schema.json", "1 to {n} bytes of UTF-8"),
        ("docs/decisions.schema.json", '"maxLength": {n},'))),
    Limit("a channel's tolerance", ("crates/channel_spec/specs/Limits.antt", "max_tolerance = {n}\n"), (
        ("crates/channel_spec/src/lib.rt", "MAX_TOLERANCE: u64 = {n:_};"),
        ("plant/adsplice_plant/faults.py", "a duration of at most {s} s"),
        ("docs/operating/faults.md", "`tolerance` is no duration, or is over {s} s"),
        ("docs/PROOF.md", "The tolerance is at most {s} s"))),
)
LIMITS = (POD_SEGMENTS, DECIDED_BREAKS, PLAYLIST_BYTES, PLAYLIST_SEGMENTS, *OTHERS)


def said(pattern: str, number: int) -> str:
    """What a place says of this number."""
    return pattern.format(n=number, more=number + 1, less=number - 1, mib=number >> 20, ms=number // 10**6, s=number // 10**9)


def text_of(path: str, top: str = TOP) -> str:
    with open(os.path.join(top, path), encoding="utf-8") as it:
        return it.read()


def number_of(limit: Limit, top: str = TOP) -> int:
    """The number that a limit's definition states. Fails if it isn't there."""
    path, pattern = limit.definition
    found = re.findall(re.sub(r"\\\{n(:_)?\\\}", "([0-9_]+)", re.escape(pattern)), text_of(path, top))
    if len(found) != 1:
        raise ValueError(f"{path} doesn't define {limit.said} once")
    return int(found[0])


def lacking(top: str = TOP) -> tuple[int, list[str]]:
    """How many places there are, and which don't say the number that is defined."""
    faults = []
    for limit in LIMITS:
        number = number_of(limit, top)
        faults += [f"{path}: it doesn't say {said(pattern, number).strip()!r}, which limits {limit.said}" for path, pattern in limit.places if said(pattern, number) not in text_of(path, top)]
    return sum(len(limit.places) for limit in LIMITS), faults
