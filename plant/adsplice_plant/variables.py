"""Variables of a playlist (EXT-X-DEFINE, of the drafts after RFC 8216): each {$NAME} becomes the text that it stands for.

adsplice takes lists of RFC 8216, which has no variables. A list that imports them from its master playlist doesn't say all by itself.
"""
from __future__ import annotations

import re
import urllib.parse

from .spelling import Kinds, Unread, attributes_of

DEFINE = "#EXT-X-DEFINE:"
LISTS = ("#EXT-X-KEY:", "#EXT-X-MAP:", "#EXT-X-DATERANGE:")  # tags whose attributes may refer to variables
NAME = re.compile(r"[A-Za-z0-9_-]{1,100}")
REFERENCE = re.compile(r"\{\$([A-Za-z0-9_-]{1,100})\}")
MOST = 100  # variables of a list
MOST_TEXT = 4 << 20  # letters of all lines, once variables have their texts


class Untaken(Unread):
    """A list that doesn't say all by itself; its text says why."""


def replaced(lines: list[str], query: str, kinds: Kinds) -> list[str]:
    """The `lines` of a list with the text of each variable in its place, and without its definitions. `query`: that of the list's own URL, of which
    variables may have parameters. What was put right is added to `kinds`. Raises Untaken if a variable's text isn't known."""
    if not any(line.startswith(DEFINE) for line in lines):
        return lines
    kinds.add("variables")
    known: dict[str, str] = {}
    found: list[str] = []
    size = 0
    for line in lines:
        if line.startswith(DEFINE):
            name, text = defined(line.removeprefix(DEFINE), query)
            if name in known or len(known) == MOST:
                raise Untaken(f"EXT-X-DEFINE defines {name} twice, or more than {MOST} variables")
            known[name] = text
            continue
        if "{$" in line and (line[0] != "#" or line.startswith(LISTS)):
            line = REFERENCE.sub(lambda it: text_of(it[1], known), line)
        size += len(line)
        if size > MOST_TEXT:
            raise Untaken(f"with the texts of its variables it has more than {MOST_TEXT} letters")
        found.append(line)
    return found


def defined(rest: str, query: str) -> tuple[str, str]:
    """The name and the text of the variable that the attribute list `rest` defines; raises Untaken if it doesn't say both."""
    said = attributes_of(rest)
    if "IMPORT" in said:
        raise Untaken(f"EXT-X-DEFINE imports {said['IMPORT'][:100]} from a master playlist, which a media playlist alone doesn't have: have the packager define it here")
    name = said.get("NAME", said.get("QUERYPARAM", ""))
    if not NAME.fullmatch(name):
        raise Untaken("an EXT-X-DEFINE has no name that reads")
    if "QUERYPARAM" not in said:
        return name, said.get("VALUE", "")
    values = urllib.parse.parse_qs(query, max_num_fields=MOST).get(name, [])
    if not values:
        raise Untaken(f"EXT-X-DEFINE takes {name} from the query of the playlist's URL, which hasn't got it")
    return name, values[0]


def text_of(name: str, known: dict[str, str]) -> str:
    """The text of the variable `name` of those that are `known` so far; raises Untaken if it isn't."""
    if name not in known:
        raise Untaken(f"the variable {name} isn't defined before it is used")
    return known[name]
