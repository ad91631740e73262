"""Splice sections (ANSI/SCTE 35, splice_info_section): the tables of worked values, and more that is worked by hand; and the
CRC_32 of bytes."""
from lines import question
from tables import computed, rows

NOT_HEX, TOO_SHORT, TABLE_ID, LENGTH, TOO_LARGE = "S1 NotHex", "S2 TooShort", "S3 TableId", "S4 Length", "S9 TooLarge"

# The CRC_32 of ISO/IEC 13818-1, Annex A, of the digits 1 to 9: the check value of CRC-32/MPEG-2 in the catalogue of
# parametrised CRC algorithms.
CHECK_VALUE = 0x0376E6E7

# Out of the network at once, for 30 seconds, with a return by itself; and its CRC_32, as tshark and GStreamer take it.
OUT = bytes.fromhex("FC302000000000000000FFF00F05000000017FFFFE002932E000010000000000000000")
OUT_FIELDS = ("pts_adjustment=0 cw=0 tier=4095 event=1 out=1 immediate=1 program auto=1 ticks=2700000 upid=1 avail=0"
              " avails=0")
OUT_CRC = 0x4B6FCB04

# Sections with what they say, beside those of the tables: back into the network at once; the highest time of 33 bits, for the
# program; two components of one tag, without times.
HEADING = "pts_adjustment=0 cw=0 tier=4095 event=1"
IDS = "upid=1 avail=0 avails=0"
SECTIONS = [
    ("FC301B00000000000000FFF00A05000000017F5F00010000000000000000", f"{HEADING} out=0 immediate=1 program {IDS}"),
    ("FC302000000000000000FFF00F05000000017FCFFFFFFFFFFF00010000000000000000",
     f"{HEADING} out=1 immediate=0 program pts={0x1FFFFFFFF} {IDS}"),
    ("FC301E00000000000000FFF00D05000000017F9F02070700010000000000000000",
     f"{HEADING} out=1 immediate=1 component=7 component=7 {IDS}"),
]
TABLES = ("Splices.SplicesAreRead", "Splices.LargeSplicesAreRead", "Splices.SpliceFaultsAreOrdered")

# Reserved bits are ignored.
RESERVED = [(1, 0xC0), (4, 0x7E), (18, 0), (19, 0xF0), (20, 0x80)]

# Values by their words, some of which have no section: a number is too wide for its field of 33 or 12 bits, a time is there
# if the splice is immediate or is none if it isn't, there are more than 255 components, or the type of splice_insert
# stands at another command.
WHOLE = 2**33
TAKEN, REFUSED = "written written", f"{TOO_LARGE} {TOO_LARGE}"
VALUES = [
    ("program", f"timed {WHOLE - 1} 0", TAKEN), ("program", f"timed {WHOLE} 0", REFUSED), ("program", "immediate 0 0", REFUSED),
    ("program", "timed none 0", REFUSED), ("program", f"immediate none {WHOLE - 1}", TAKEN),
    ("program", f"immediate none {WHOLE}", REFUSED),
    ("components", "immediate none 255", TAKEN), ("components", "immediate none 256", REFUSED),
    ("components", "timed none 1", REFUSED), ("components", "immediate 0 1", REFUSED), ("components", f"timed {WHOLE} 2", REFUSED),
    ("heading", f"{WHOLE - 1} {0xFFF}", TAKEN), ("heading", f"{WHOLE} {0xFFF}", REFUSED), ("heading", f"{WHOLE - 1} {0x1000}", REFUSED),
    ("command", "5", REFUSED), ("command", "6", TAKEN),
]

HEXADECIMAL = [
    ("", NOT_HEX), ("0", NOT_HEX), ("0x FC", NOT_HEX),
    # More bytes than a section can have are refused, whatever their length says.
    *((f"0x{front}{'00' * 5000}{last}", fault) for front, last, fault in (
        ("FC3FFF", "00", LENGTH), ("FD3FFF", "00", TABLE_ID), ("FC3FFF", "0g", NOT_HEX), ("FC3FFF", "0", NOT_HEX))),
]


def crc_of(section):
    """CRC_32 by the register of ISO/IEC 13818-1, Annex A: all ones at first, the highest bit of a byte first."""
    register = 0xFFFFFFFF
    for byte in section:
        for place in range(7, -1, -1):
            leaves = register >> 31 ^ byte >> place & 1
            register = register << 1 & 0xFFFFFFFF ^ (0x04C11DB7 if leaves else 0)
    return register


def hexadecimal(section):
    return "0x" + section.hex()


def sealed(section):
    """A section with its own CRC_32 in place of the one that it states."""
    return section[:-4] + crc_of(section[:-4]).to_bytes(4, "big")


def said(fields, stated, section):
    """The answer for a section that can be written: what it says, and the section with its own CRC_32."""
    return f"{fields} stated={stated} crc=0 {hexadecimal(sealed(section))}"


def turned(section, places):
    bytes_of = bytearray(section)
    for place, byte in places:
        bytes_of[place] = byte
    return bytes(bytes_of)


# ---- the tables

def time(given):
    """A time of a table, which isn't there, is left open, or is said."""
    return [f"pts={pts[1] if pts[1:] else 'open'}" for pts in (it["pts"] for it in given[1:])]


def target(kind, of):
    if kind == "Program":
        return ["program", *time(of)]
    return [word for tag, pts in of for word in (f"component={tag}", *time(pts))]


def command(kind, *of):
    """What a table says of a command, in the driver's words."""
    if kind == "Other":
        return [f"command={of[0]}", *named("bytes", of[1])]
    event, = of
    if event["body"] == ("None",):
        return [f"event={event['event_id']}", "cancelled"]
    body = event["body"][1]
    lasts = [f"auto={it['auto_return']:d} ticks={it['ticks']}" for it in body["duration"][1:]]
    return [f"event={event['event_id']} out={body['out_of_network']:d} immediate={body['immediate']:d}", *target(*body["target"]), *lasts,
            f"upid={body['unique_program_id']} avail={body['avail_num']} avails={body['avails_expected']}"]


def named(name, data):
    return [f"{name}=0x{bytes(data).hex()}"] if data else []


def as_written(section, said):
    """A section of a table as it is written: its command's length is said, and bits that mean nothing are none."""
    length = len(section) - 20 - len(said["descriptors"]) - len(said["stuffing"])
    return turned(section, [(4, section[4] & 0x81), (11, section[11] & 0xF0 | length >> 8), (12, length & 0xFF)])


def worked():
    """The sections of the tables, each with what it says or its fault."""
    for text, (word, it) in rows(*TABLES):
        if word == "Err":
            yield question("section", bytes(text), bytes(computed("scte35_codec", "Fault", "fault_text", it)).decode())
            continue
        words = [f"pts_adjustment={it['pts_adjustment']} cw={it['cw_index']} tier={it['tier']}", *command(*it["command"]),
                 *named("descriptors", it["descriptors"]), *named("stuffing", it["stuffing"])]
        section = bytes.fromhex(bytes(text[2:]).decode())
        yield question("section", bytes(text), said(" ".join(words), it["crc"], as_written(section, it)))


# ---- more by hand

def sections():
    for digits, fields in SECTIONS:
        section = bytes.fromhex(digits)
        yield question("section", f"0x{digits}", said(fields, 0, section))
        yield question("rewritten", f"0x{digits}", hexadecimal(section))
    for text in ("0x" + OUT.hex().upper(), "0X" + OUT.hex(), hexadecimal(turned(OUT, RESERVED))):
        yield question("section", text, said(OUT_FIELDS, 0, OUT))


def faults():
    for count in range(len(OUT)):
        yield question("section", hexadecimal(OUT[:count]), TOO_SHORT if count < 20 else LENGTH)


def longest():
    """section_length is at most 4093 in what is written; what is read has up to two bytes more."""
    for length in (4093, 4094, 4095):
        stuffing = bytes(length - 32)
        section = bytes([0xFC, 0x30 | length >> 8, length & 0xFF]) + OUT[3:31] + stuffing + bytes(4)
        fields = f"{OUT_FIELDS} stuffing={hexadecimal(stuffing)}"
        is_written = length == 4093
        answer = said(fields, 0, section) if is_written else f"{fields} stated=0 {TOO_LARGE}"
        yield question("section", hexadecimal(section), answer)
        yield question("rewritten", hexadecimal(section), hexadecimal(section) if is_written else TOO_LARGE)


def checks():
    # (this file's own register is held against the same values)
    assert crc_of(b"123456789") == CHECK_VALUE and crc_of(OUT[:31]) == OUT_CRC
    yield question("crc", b"123456789", CHECK_VALUE)
    yield question("crc", OUT[:31], OUT_CRC)


LINES = [
    *worked(), *sections(), *faults(), *(question("section", text, fault) for text, fault in HEXADECIMAL), *longest(), *checks(),
    *(question(word, words, answer) for word, words, answer in VALUES), ("memory", "A7 OutOfMemory S8 OutOfMemory"),
]
