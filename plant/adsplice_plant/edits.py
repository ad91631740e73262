"""The difference of two texts by their lines: what a list takes over from the one before it, and what is new in it.

An edit is a list of pieces which make the new text one after the other: a text that is new, or a pair of numbers, from which
line of the old text to which (counted from 0, the second one not among them). A list whose window moved on takes a few pieces.
Lines end with LF alone (RFC 8216, 4.1).
"""
from typing import AnyStr, NamedTuple

Piece = str | list[int]
LOOKS = 4  # at each line of the old text, after which what is out of order counts as new; and at the rest of both texts
ALIKE = 150  # letters, or bytes, at a text's end by which it is found in the next one


def lines_of(text: str) -> list[str]:
    """The lines of `text`, each with its LF; the last one may lack it."""
    parts = text.split("\n")
    return [f"{it}\n" for it in parts[:-1]] + ([parts[-1]] if parts[-1] else [])


class Common(NamedTuple):
    """What the end of an old text and a new one have in common: from the place `old` on in the old text to its end, and in the new one from
    the place `begin` on, to the place `end`."""

    old: int
    begin: int
    end: int


def common_end(old: AnyStr, new: AnyStr) -> Common | None:
    """The end of the text `old` that stands in `new`, from one of the first lines of `new` on; none if it isn't found by its last letters.
    A list whose window moved on has all but its front from the list before it. The texts are compared LOOKS times at most."""
    line_end = old[-1:]
    if len(old) < ALIKE or line_end not in ("\n", b"\n") or (at := new.rfind(old[-ALIKE:])) < 0:
        return None
    end, begin, looks = at + ALIKE, 0, 0
    while looks < LOOKS and (past := new.find(line_end, begin, end) + 1):
        place = len(old) - (end - begin)
        if place >= 0 and old[place - 1:place] in (line_end[:0], line_end) and old.startswith(new[begin:past], place):
            looks += 1
            if new.startswith(old[place:], begin):
                return Common(place, begin, end)
        begin = past
    return None


def edit_of(old: str, new: str) -> list[Piece]:
    """The edit that makes the text `new` of the text `old`: by what their ends have in common, and by lines for the rest."""
    if (common := common_end(old, new)) is None:
        return edit_of_lines(lines_of(old), lines_of(new))
    first = old.count("\n", 0, common.old)
    pieces = edit_of_lines(lines_of(old[:common.old]), lines_of(new[:common.begin]))
    past = first + new.count("\n", common.begin, common.end)
    if pieces and isinstance(last := pieces[-1], list) and last[1] == first:
        last[1] = past
    else:
        pieces.append([first, past])
    return pieces + ([new[common.end:]] if common.end < len(new) else [])


def edit_of_lines(old: list[str], new: list[str]) -> list[Piece]:
    """The edit that makes the lines `new` of the lines `old`. It takes lines over in their order, and looks at each a few times. Lines are
    passed for two that follow one another in both, so that none that is often there (EXTINF) leads far ahead."""
    there, left = set(old), LOOKS * len(old)
    pieces: list[Piece] = []
    fresh: list[str] = []
    upto = 0  # of the old lines, those before it are passed
    for place, line in enumerate(new):
        at = upto if upto < len(old) and old[upto] == line else -1
        if at < 0 and line in there and left > 0:
            at = place_of(old, line, upto)
            left -= (at if at >= 0 else len(old)) - upto
            if at >= 0 and old[at + 1:at + 2] != new[place + 1:place + 2]:
                at = -1
        if at < 0:
            fresh.append(line)
            continue
        if fresh:
            pieces.append("".join(fresh))
            fresh = []
        if pieces and isinstance(last := pieces[-1], list) and last[1] == at:
            last[1] = at + 1
        else:
            pieces.append([at, at + 1])
        upto = at + 1
    return pieces + (["".join(fresh)] if fresh else [])


def place_of(lines: list[str], line: str, upto: int) -> int:
    """Where in `lines` from `upto` on the text `line` is; -1 if it isn't."""
    try:
        return lines.index(line, upto)
    except ValueError:
        return -1


def places_after(edit: list[Piece], before: dict[int, str], front: str) -> tuple[dict[int, str], int]:
    """Where the lines are that begin with `front`, by their places in the text that `edit` makes of one which has those `before`; and
    how many lines that text has."""
    found: dict[int, str] = {}
    count = 0
    for piece in edit:
        if isinstance(piece, str):
            if front in piece:
                found |= {count + at: line for at, line in enumerate(lines_of(piece)) if line.startswith(front)}
            count += piece.count("\n")
        else:
            first, past = piece
            found |= {count + at - first: line for at, line in before.items() if first <= at < past}
            count += past - first
    return found, count


def edited(old: list[str], edit: list[Piece]) -> list[str]:
    """The lines that `edit` makes of the lines `old`; raises ValueError if it isn't one of theirs."""
    made: list[str] = []
    for it in edit:
        if isinstance(it, str):
            made += lines_of(it)
        else:
            first, past = it
            if not 0 <= first < past <= len(old):
                raise ValueError(f"an edit takes lines {first} to {past} of {len(old)}")
            made += old[first:past]
    return made
