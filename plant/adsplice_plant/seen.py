"""What adsplice takes of a list without a word, and what is most likely a mistake."""
from __future__ import annotations

import re

from adsplice_rules.lines import kind_of, lines_of, rest_of
from adsplice_rules.times import duration_of, duration_text, rounded_seconds

from .history import Given
from .unseen import unseen

COMMA = re.compile(r"#EXTINF:([0-9]{1,6}),([0-9]{1,9}),?")


def strange_in(given: Given) -> list[tuple[str, str]]:
    """What is strange in the list that was `given`, each with its kind."""
    found, target, duration, lines = [], None, None, lines_of(given.text())
    for number, line in enumerate(lines, 1):
        if len(line) < 30 and (comma := COMMA.fullmatch(line)):
            found.append(("comma", f"line {number}: {line} is {comma[1]} s with the title {comma[2]}: a decimal has a point, as {comma[1]}.{comma[2]}"))
        if line.startswith("#EXT-X-TARGETDURATION:"):
            target = duration_of(rest_of(line))
        if line.startswith("#EXTINF:"):
            duration = duration_of(rest_of(line).partition(",")[0])
        if kind_of(line) == "URI":
            last, duration = duration, None
            if last is not None and target is not None and rounded_seconds(last) > rounded_seconds(target):
                found.append(("long", f"line {number}: a segment lasts {duration_text(last)} s, over the target duration of {duration_text(target)} s"))
    found += unseen(lines)
    if lines and not given.body.endswith((b"\n", b"#EXT-X-ENDLIST")):
        found.append(("cut", f"its last line has no end, and may be cut off: {lines[-1][:100]}"))
    return found
