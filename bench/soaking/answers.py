"""The answers that may be given, by name (docs/operating/faults.md has them all), and what has to hold between the answers of an
input.

Out of memory is none of them: nothing refuses memory here.
"""
import re

PLAYLIST_FAULTS = """P1 NotUtf8|P2 TooLong|P3 NoHeader|P4 Control|P5 BadVersion|P6 Version|P7 Repeated|P8 Misplaced|P9 BadValue
P10 BadDuration|P11 BadAttributes|P12 MissingAttribute|P13 BadRange|P14 RangeNoStart|P15 BadTime|P16 BadUri|P17 NoDuration
P18 NoTarget|P19 MasterPlaylist|P20 IFramesOnly|P21 NoSegments|P22 MixedMaps|P23 MapWithoutIv|P24 TooMany""".replace("\n", "|")
SUCCESSION_FAULTS = ("N1 VersionChanged|N2 TargetChanged|N3 TypeChanged|N4 MapsChanged|N5 Back|N6 Gap|N7 Shrunk"
                     "|N8 Changed [0-9]+|N9 Ended|N10 NumberRange")
FILE_FAULTS = "J1 NotJson|J2 Shape|J3 BadUri|J4 BadDuration|J5 BadKey|J6 EmptyPod|J7 TooMany"
STORE_FAULTS = "J9 Used|J10 Full|J11 Unknown"
PLACE = "( break [0-9]+( ad [0-9]+( segment [0-9]+)?)?)?"
SECTION_FAULTS = "S1 NotHex|S2 TooShort|S3 TableId|S4 Length|S5 Protocol|S6 Encrypted|S7 CommandLength"
WORDS = "Filled|NoStart|NotSignalled|NotDecided|DoesNotFit|Waiting"

READ_REFUSAL = rf"({PLAYLIST_FAULTS})( line [0-9]+)?"
REFUSED = {
    400: "bad request", 404: "not found", 405: "method not allowed", 411: "length required", 413: "too large",
    409: f"channel exists|{SUCCESSION_FAULTS}|{STORE_FAULTS}",
    422: f"{READ_REFUSAL}|({FILE_FAULTS}){PLACE}|C1 BadBase|C2 BadTolerance",
}


def whole(pattern):
    return re.compile(pattern.encode(), re.DOTALL)


FIELDS = (r"pts_adjustment=\d+ cw=\d+ tier=\d+ (command=\d+( bytes=0x[0-9a-f]+)?|event=\d+ (cancelled|out=[01] immediate=[01]"
          r"( program| component=\d+| pts=(\d+|open))*( auto=[01] ticks=\d+)? upid=\d+ avail=\d+ avails=\d+))"
          r"( descriptors=0x[0-9a-f]+)?( stuffing=0x[0-9a-f]+)? stated=\d+")
NAMED = {
    b"channel": whole("ok\n"),
    b"decide": whole(f"(ok|({FILE_FAULTS}){PLACE}|{STORE_FAULTS})\n"),
    b"withdraw": whole("(ok|J9 Used|J11 Unknown)\n"),
    b"refresh": whole(f"(ok [0-9]+ [0-9]+ [0-9]+|{READ_REFUSAL}|{SUCCESSION_FAULTS})\n"),
    b"playlist": whole("none\n|playlist\n#EXTM3U\n#EXT-X-VERSION:[67]\n#EXT-X-TARGETDURATION:.*\n\n"),
    b"known": whole(f"known\n([^\n]* ({WORDS})\n)*"),
    b"edge": whole(""),
    b"section": whole(rf"({SECTION_FAULTS}|{FIELDS}( crc=0 0x[0-9a-f]+| S9 TooLarge))\n"),
}
OUTCOME = re.compile(rb"([0-9]{3}|E1 Read|E2 Write|E3 TooManyReads|E4 Ended)\n(.*)\n", re.DOTALL)
REPLY = re.compile(rb"HTTP/1\.1 ([0-9]{3}) [A-Za-z ]+\r\n((?:[A-Za-z-]+: [^\r\n]*\r\n)*)\r\n(.*)", re.DOTALL)
SUCCESS = (b"200", b"201", b"204")


def reply_complaint(status, written, is_head):
    """What is wrong with a whole reply."""
    reply = REPLY.fullmatch(written)
    if not reply or reply[1] != status:
        return "the reply isn't one of this status"
    length, body = re.search(rb"Content-Length: (\d+)\r\n", reply[2]), reply[3]
    if (length is None) != (status == b"204") or (length and not is_head and int(length[1]) != len(body)):
        return "the reply's length isn't that of its body"
    if status in SUCCESS:
        return None
    names = REFUSED.get(int(status))
    if names is None:
        return "the status is none of those that are told"
    return None if (is_head and not body) or re.fullmatch(f"({names})\n".encode(), body) else "the refusal has no name"


# (empty lines may stand before a request: RFC 9112, 2.2)
ASKS_HEAD = re.compile(rb"serve( [0-9]+){4} (\\[rn])*HEAD ")


def served_complaint(line, answer):
    outcome = OUTCOME.fullmatch(answer)
    if not outcome:
        return "the outcome has no name"
    if outcome[1].isdigit():
        return reply_complaint(outcome[1], outcome[2], ASKS_HEAD.match(line))
    return "a request that wasn't whole was answered" if outcome[2] and outcome[1] != b"E2 Write" else None


def named_complaint(line, answer):
    """What is wrong with one answer, whatever was asked before."""
    word = line.partition(b" ")[0]
    if word == b"serve":
        return served_complaint(line, answer)
    return None if NAMED.get(word, NAMED[b"section"]).fullmatch(answer) else "the answer has no name"


def counts_complaint(accepted, shown):
    """An accepted refresh tells the first number and the count of what is written then."""
    media, segments, _ = accepted.split()[1:]
    if b"\n#EXT-X-MEDIA-SEQUENCE:" + media + b"\n" not in shown:
        return "what is written has another first number"
    count = sum(1 for line in shown.split(b"\n")[1:] if line and not line.startswith(b"#"))
    return None if count == int(segments) else "what is written has another count"


def is_refused(word, answer):
    if word == b"serve":
        outcome = answer.partition(b"\n")[0]
        return outcome not in SUCCESS and outcome != b"E2 Write"
    return not answer.startswith(b"ok")


def state_complaint(input, answers, before):
    """A refused line changes nothing that is written; an accepted refresh is what is written."""
    line, answer, after = input.asked[input.at], answers[input.at], answers[input.at + 1]
    word = line.partition(b" ")[0]
    if word == b"decide":
        return None  # (what is written doesn't change before a refresh)
    if is_refused(word, answer):
        return None if before is None or before == after else "a refused request changed what is written"
    return counts_complaint(answer, after) if word == b"refresh" else None


def complaint(input, answers, before=None):
    """What is wrong with the answers to an input, or None. `before`: what was written before the input."""
    for line, answer in zip(input.asked, answers):
        found = named_complaint(line, answer)
        if found:
            return f"{found}: {line[:60]!r} {answer[:200]!r}"
    if input.kind == "section":
        return None
    if input.kind == "decisions" and is_refused(b"decide", answers[1]) and answers[2] != b"J11 Unknown\n":
        return "a refused decision file decided a break"
    if input.at and input.asked[input.at - 1] == input.asked[input.at + 1]:
        before = answers[input.at - 1]
    return state_complaint(input, answers, before)
