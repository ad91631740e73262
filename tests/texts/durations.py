"""Durations in decimal seconds (RFC 8216, 4.3.2.1): the tables of worked values, and more that is worked by hand. Each is
read and written in nanoseconds."""
from lines import question
from tables import rows

MOST = 2**64 - 1
FAULTS = {"Empty": "U1 Empty", "NotDigits": "U2 NotDigits", "TooLarge": "U3 TooLarge"}

READ = [
    ("9.976666666666667", 9_976_666_666), ("0", 0), ("0000000009.5", 9_500_000_000), ("999999", 999_999_000_000_000),
    ("999999.9999999999", 999_999_999_999_999), (" 1", FAULTS["NotDigits"]), ("1e3", FAULTS["NotDigits"]),
    ("1000000.", FAULTS["TooLarge"]), ("99999999999999999999999", FAULTS["TooLarge"]),
    *((bytes(text), FAULTS[it[0]] if word == "Err" else it) for text, (word, it) in rows("Texts.DurationsAreRead")),
]

# The digits after a point.
FRACTIONS = [("", 0), ("25", 250_000_000), ("0000000019", 1)]

# Written behind what stands in a text before.
WRITTEN = [
    (9_976_666_666, "9.976666666"), (10_050_000_000, "10.05"), (999_999_999_999_999, "999999.999999999"),
    (MOST, "18446744073.709551615"), *((nanos, bytes(text).decode()) for nanos, text in rows("Texts.DurationsAreWritten")),
]

# A half goes up.
ROUNDED = [(MOST, 18_446_744_074), *rows("Texts.DurationsAreRounded")]

SUMS = [(8_000_000_000, 9_500_000_000, 17_500_000_000), (MOST, 0, MOST), (MOST, 1, "none")]

LINES = [
    *(question("duration", text, answer) for text, answer in READ),
    *(question("fraction", digits, answer) for digits, answer in FRACTIONS),
    *(question("seconds", str(nanos), f"#EXTINF:{answer}") for nanos, answer in WRITTEN),
    *(question("rounded", str(nanos), answer) for nanos, answer in ROUNDED),
    *(question("sum", f"{first} {second}", answer) for first, second, answer in SUMS),
]
