"""The kinds of repairs that the feed does to a packager's list: the section of RFC 8216 that each is by, and what is told of it."""

# Each kind with its section and what is told; `{}` stands for what is known of the case.
KINDS = {
    "byte order mark": ("4.1", "the playlist begins with a byte order mark, which is left out"),
    "bytes": ("4.1", "the playlist isn't UTF-8: its other bytes become U+FFFD in tags and are percent-encoded in URIs"),
    "control characters": ("4.1", "control characters in tags and titles become spaces"),
    "spaces": ("4.1", "spaces around lines, numbers and durations are left out"),
    "attribute lists": ("4.2", "spaces around attributes, and a comma after the last one, are left out"),
    "last line": ("4.1", "the last line has no end; it is ended"),
    "durations": ("4.3.2.1", "a duration is written as a decimal without an exponent, and without attributes after it"),
    "variables": ("4.1", "EXT-X-DEFINE isn't of RFC 8216: each variable is written as the text that it stands for"),
    "session tags": ("4.3.4", "EXT-X-SESSION-KEY and EXT-X-SESSION-DATA are of a master playlist, and are left out"),
    "listed twice": ("4.3.3.2", "the newest segment is listed twice, and is written once"),
    "dates": ("4.3.2.6", "a date and time is written with a T and without spaces"),
    "instants": ("4.3.2.6", "a date and time that doesn't read is left out"),
    "target duration": ("4.3.3.1", "EXT-X-TARGETDURATION is a whole number, rounded up"),
    "version": ("4.3.1.2", "EXT-X-VERSION {} throughout"),
    "target": ("4.3.3.1", "EXT-X-TARGETDURATION doesn't change: it is {} throughout"),
    "long segment": ("4.3.3.1", "a segment of {}"),
    "type": ("4.3.3.5", "EXT-X-PLAYLIST-TYPE doesn't change, and is EVENT or VOD: {}"),
    "end": ("4.3.3.4", "EXT-X-ENDLIST is left out, since the channel is endless (endless = no lets it end)"),
    "sequence tags": ("4.3.3", "tags of the whole playlist come once, before the first segment"),
    "discontinuity sequence": ("6.2.2", "EXT-X-DISCONTINUITY-SEQUENCE is counted on when a discontinuity leaves the playlist"),
    "numbers": ("6.2.1", "the packager's media numbers don't say which segments went: the segments themselves do"),
    "own numbers": ("6.2.1", "media numbers go on from what viewers have; the packager's are others"),
    "growing": ("6.2.1", "the newest segment is listed before it is whole, and isn't given before that"),
    "changed segments": ("6.2.1", "a segment that was listed isn't what it was; it stays as it was"),
    "began again": ("6.2.1", "{}"),
    "few segments": ("6.2.2", "the packager began again: what was listed before stays until the playlist lasts three target durations"),
    "older segments": ("6.2.2", "segments that had left the playlist came back; they stay away"),
    "queries": ("6.2.1", "a segment's URI changes in its query; it keeps the first one"),
    "keys": ("5.2", "a key without IV has the packager's number as IV, which is stated"),
    "other renditions": ("6.2.4", "a rendition that was away takes segments or a discontinuity of the others, so that equal instants have equal numbers"),
    "times": ("4.3.2.6", "no segment states EXT-X-PROGRAM-DATE-TIME: it is added by this machine's clock (times = no leaves it out)"),
    "clock": ("4.3.2.6", "the packager has set its clock: that of viewers goes on, and comes nearer to it while no break is open"),
    "other sections": ("4.3.2.5", "segments in front have an initialisation section where the others have none, or the other way round: they are left out"),
    "gaps": ("6.2.1", "a segment of EXT-X-GAP isn't there, and is left out with a discontinuity after it"),
}
TOLD_EACH = ("long segment", "began again")  # each time that it is another case
# What is told of a list that isn't taken, or not yet.
HELD = "the playlist has no segment of the last one; it is taken if it stays so for {} s"
BEGAN_AGAIN = "the playlist has no segment of the last one (media numbers from {} on, after {}): goes on at {} with one discontinuity"
LAGS = "the playlist is older than the last one, and is passed over"
SECTIONS = ("initialisation sections (EXT-X-MAP) came or went, which adsplice takes in a new channel alone: it isn't given this playlist "
            "(a person makes a new channel by a DELETE of this one)")
EMPTY = "the playlist has no segment yet; waits for one"
NOT_ALL = "{}: the playlist isn't given to adsplice"
NEEDS = "{} is in the playlist, which doesn't say all without what came before: it isn't given to adsplice (have the packager leave it out)"


def told(kind: str, detail: str = "") -> str:
    """What is told of the repair `kind`, with its `detail`."""
    section, text = KINDS[kind]
    return f"{text.replace('{}', detail)} (RFC 8216, {section})"
