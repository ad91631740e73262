"""Attribute lists, decimals and hexadecimal sequences (RFC 8216, 4.2): the tables of worked values, and more that is worked
by hand."""
from lines import question, told
from tables import fault, rows

# Lists with their attributes: name, value, whether it stands in quotes.
LISTS = [
    ('A=1,B="x,y",C-2=0xFf', [("A", "1", False), ("B", "x,y", True), ("C-2", "0xFf", False)]),
    ("A=1", [("A", "1", False)]),
    ('A=""', [("A", "", True)]),
    ('A="a,b=c, d",B==', [("A", "a,b=c, d", True), ("B", "=", False)]),
    ("-=1,0=2,A-0=3", [("-", "1", False), ("0", "2", False), ("A-0", "3", False)]),
    ("A=1,AA=1,B=A", [("A", "1", False), ("AA", "1", False), ("B", "A", False)]),
    ('URI="\u00e9 \u20ac",X=\u00a0\u3000\ufeff', [("URI", "\u00e9 \u20ac", True), ("X", "\u00a0\u3000\ufeff", False)]),
    ('A=a=b,B="="', [("A", "a=b", False), ("B", "=", True)]),
]

# The places of the first list's attributes, in bytes: it begins and ends there.
FIRST_PLACES = [(0, 3), (4, 11), (12, 20)]

# The value of a name, if the list has one.
NAMED_IN = 'METHOD=AES-128,URI="k",IV=0x1'
NAMED = [("URI", '="k"'), ("IV", "=0x1"), ("", "none"), ("uri", "none"), ("UR", "none"), ("URI ", "none"), ("KEYFORMAT", "none")]

BAD_NAME, NO_EQUALS, BAD_VALUE, OPEN_QUOTE = "A1 BadName", "A2 NoEquals", "A3 BadValue", "A4 OpenQuote"
TWICE, TOO_MANY, BAD_NUMBER = "A5 Twice", "A6 TooMany", "A8 BadNumber"

FAULTS = [
    ("=1", BAD_NAME), ("A b=1", BAD_NAME), (" A=1", BAD_NAME), ('A"B"=1', BAD_NAME), (",A=1", BAD_NAME),
    ("A,B=1", NO_EQUALS), ("A=1,B", NO_EQUALS), ("A=1,A", NO_EQUALS), ("A=,B=1", BAD_VALUE), ("A= x", BAD_VALUE),
    ('A="x"y,B="', BAD_VALUE), ('A="x""y"', BAD_VALUE), ('A="x" ,B=1', BAD_VALUE), ("A=,A=1,b", BAD_VALUE),
    ('A="', OPEN_QUOTE), ('A="x,B=1', OPEN_QUOTE), ('A=1,B=2,A="x', TWICE), ("A=1,A=", TWICE),
]

# As many attributes as a list may have, and what is refused behind them.
MOST = ",".join(f"A{place}={place}" for place in range(64))
MORE = [",A64=64", ",", ",a", ",A0=0", ',A64="']

# Control characters and those past ASCII may stand in values, between quotes or not, and in no name.
ANY = [*map(chr, range(0x20)), *map(chr, range(0x7f, 0xa1)), "\u00e9", "\u3000", "\ufeff", "\u20ac", "\U0001f600", "\U0010ffff"]

DECIMALS = [
    ("7", 7), ("0123456789", 123_456_789), ("00000000000000000000", 0), ("00000000000000000080", 80),
    *((text, BAD_NUMBER) for text in ("99999999999999999999", "000000000000000000000", "+1", " 1", "1 ", "0x1", "\u0661")),
]

HEXADECIMALS = [
    ("0x0", 0), ("0xFf", 255), ("0XaB09", 0xab09), ("0x00000000000000000000000000000001", 1),
    ("0x0123456789abcdefABCDEF0123456789", 0x0123456789abcdefabcdef0123456789),
    *((text, BAD_NUMBER) for text in ("", "5", "x1", "0x+1", "0x1 ", "0x0x1", "00x1", "0\u00d71")),
]


def numbers(word, more, table):
    """Numbers that are read, or none: of a table, and more."""
    stated = [(bytes(text), BAD_NUMBER if it == ("None",) else it[1]) for text, it in rows(table)]
    return [question(word, text, answer) for text, answer in more + stated]


def spelled(attribute):
    """An attribute as it stands in a list (RFC 8216, 4.2)."""
    name, value, is_quoted = attribute
    return f'{name}="{value}"' if is_quoted else f"{name}={value}"


def printed(attributes):
    """The answer for a list: the attributes lie side by side over the whole text, a comma between two."""
    words, begin = [], 0
    for attribute in attributes:
        end = begin + len(spelled(attribute).encode())
        words.append(f"{begin}..{end} {told(spelled(attribute))}")
        begin = end + 1
    return " ".join(words)


def worked():
    """The lists of the table, each with its attributes or its fault."""
    for text, (word, it) in rows("Texts.AttributesAreRead"):
        if word == "Err":
            yield question("attributes", bytes(text), fault("attr_list", it).decode())
        else:
            said = [(bytes(one["name"]).decode(), bytes(one["value"]).decode(), one["quoted"]) for one in it]
            yield question("attributes", bytes(text), printed(said))


def lists():
    for text, attributes in LISTS:
        assert text == ",".join(map(spelled, attributes)), text
        yield question("attributes", text, printed(attributes))
    assert [f"{begin}..{end}" for begin, end in FIRST_PLACES] == printed(LISTS[0][1]).split(" ")[0::2]
    most = [(f"A{place}", str(place), False) for place in range(64)]
    yield question("attributes", MOST, printed(most))
    yield question("attribute", f"A63\n{MOST}", "=63")


def characters():
    for character in ANY:
        value = f"x{character}y"
        yield question("attribute", f"A\nA={value},B=1", f"={told(value)}")
        yield question("attribute", f'A\nA="{value}",B=1', f'="{told(value)}"')
        yield question("attributes", f"A{character}=1", BAD_NAME)


LINES = [
    *worked(),
    *lists(),
    *(question("attribute", f"{name}\n{NAMED_IN}", answer) for name, answer in NAMED),
    *(question("attributes", text, fault) for text, fault in FAULTS),
    *(question("attributes", MOST + more, TOO_MANY) for more in MORE),
    *characters(),
    *numbers("decimal", DECIMALS, "Texts.DecimalsAreRead"),
    *numbers("hexadecimal", HEXADECIMALS, "Texts.SequencesAreRead"),
]
