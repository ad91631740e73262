"""What each fault of adsplice says in words, and what to do: for the lines of the feed, the explainer and the judge of decision files."""
from adsplice_rules.decisions import MOST_DECIDED, MOST_POD_SEGMENTS

# Each code with what it means. The pages of docs say more.
MEANINGS = {
    "P1": "it isn't UTF-8",
    "P2": "it is longer than 4,194,304 bytes",
    "P3": "its first line isn't #EXTM3U: perhaps a byte order mark, an HTML page, or line ends that were dropped",
    "P4": "the line holds a control character",
    "P5": "EXT-X-VERSION is no decimal",
    "P6": "EXT-X-VERSION isn't one from 1 to 7",
    "P7": "a tag of the whole playlist comes twice",
    "P8": "EXT-X-MEDIA-SEQUENCE or EXT-X-DISCONTINUITY-SEQUENCE comes too late",
    "P9": "the tag's value isn't one that it may have",
    "P10": "a duration isn't a decimal of seconds, such as 6.006",
    "P11": "the attribute list doesn't read: perhaps a space after a comma, a value without its quotes, or a name twice",
    "P12": "an attribute that has to be there is missing",
    "P13": "a byte range doesn't read",
    "P14": "a byte range without an offset doesn't follow one of the same resource",
    "P15": "a date and time isn't one, such as 2024-05-01T12:00:00Z",
    "P16": "a URI doesn't join to the base",
    "P17": "a segment has no EXTINF",
    "P18": "there is no EXT-X-TARGETDURATION: perhaps the playlist is cut off",
    "P19": "it is a master playlist; adsplice takes the media playlists that it names, each as a channel",
    "P20": "it lists I-frames only",
    "P21": "it has no segment: perhaps it is cut off",
    "P22": "some segments have an initialisation section (EXT-X-MAP) and some haven't",
    "P23": "an initialisation section is encrypted with AES-128 and no IV is stated",
    "P24": "more than 10,000 segments, or keys of more than 16 formats at a time",
    "N1": "EXT-X-VERSION isn't what it was",
    "N2": "EXT-X-TARGETDURATION isn't what it was",
    "N3": "EXT-X-PLAYLIST-TYPE isn't what it was",
    "N4": "initialisation sections (EXT-X-MAP) came or went",
    "N5": "it begins at a smaller media number than before: a packager that lags, or began anew",
    "N6": "it leaves numbers out: playlists were lost, or the packager jumped ahead",
    "N7": "the newest segment is gone: a packager that lags, began anew, or a playlist that was cut off",
    "N8": "a segment isn't what it was: another URI, range, key, duration or discontinuity number",
    "N9": "it had ended (EXT-X-ENDLIST), and now says more or other",
    "N10": "a written number would pass 2^64 - 1",
    "J1": "it isn't JSON",
    "J2": "a member is missing, or isn't of its type",
    "J3": "a URI isn't an absolute one that begins with http:// or https://",
    "J4": "a duration isn't a decimal of seconds",
    "J5": "the key needs `method`, `uri` and `iv`",
    "J6": "a break without ads, or an ad without segments",
    "J7": f"more than {MOST_POD_SEGMENTS} segments for one break",
    "J9": "a break of it has begun with another pod, which it keeps",
    "J10": f"{MOST_DECIDED} breaks are decided, and no more have room",
    "J11": "the withdrawn break has no pod of its own",
    "C1": "the base isn't an absolute http or https URL",
    "C2": "the tolerance isn't a duration of at most 10 s",
}
# What an answer without a fault's code means, by its status.
STATUSES = {
    400: "the request doesn't read",
    404: "the channel isn't there",
    405: "the route doesn't take PUT: the address isn't adsplice's",
    409: "the channel is there already",
    411: "a server in between sends the playlist without its length",
    413: "it is longer than 4,194,304 bytes",
    500: "a server in between fails",
    502: "the server in front doesn't reach adsplice",
    503: "no room: 64 channels are there, memory ran out, or a limit of the server in front is reached",
    504: "the server in front waits in vain for adsplice",
}


def code_of(line: str) -> str:
    """The code that a fault's text `line` begins with, such as `N8`; none if it begins with no known one."""
    word = line.partition(" ")[0]
    return word if word in MEANINGS else ""


def name_of(line: str) -> str:
    """The code and the name of a fault's text `line`, without its place: `N8 Changed` of `N8 Changed 17`."""
    return " ".join(line.split()[:2]) if code_of(line) else ""


def meaning(status: int, line: str) -> str:
    """What an answer of `status` with the fault's text `line` means, in words."""
    code = code_of(line)
    return MEANINGS[code] if code else STATUSES.get(status, f"status {status}")


def follows_badly(line: str) -> bool:
    """Whether a fault's text `line` says that a playlist doesn't follow the last one, for which the channel can be made anew."""
    return code_of(line) in {f"N{n}" for n in range(1, 10)}
