"""Which public functions don't name their parameters in their docstrings. tests/rules calls `lacking`."""
import glob
import os
import re
from collections.abc import Iterator

from functions import functions_in

# What every function takes alike, and needs no word: where memory comes from, and the handle of the process.
UNNAMED = {"self", "alloc", "rt"}
PUBLIC = re.compile(r" *pub(?:\([^)]*\))? (?:const |unsafe )*fn \w+")
OPENING, CLOSING = "(<[", ")>]"


def without_arrows(text: str) -> str:
    """The text without `->`, whose `>` closes nothing."""
    return text.replace("->", "  ")


def end_of_brackets(text: str, begin: int) -> int:
    """The place after the bracket that closes the one at `begin`."""
    depth = 0
    for at in range(begin, len(text)):
        depth += (text[at] in OPENING) - (text[at] in CLOSING)
        if depth == 0:
            return at + 1
    raise ValueError(f"a bracket is not closed: {text[begin:begin + 60]!r}")


def parts_between_commas(text: str) -> Iterator[str]:
    """The parts of a list of parameters: a comma within brackets parts nothing."""
    depth, begin = 0, 0
    for at, letter in enumerate(text):
        depth += (letter in OPENING) - (letter in CLOSING)
        if letter == "," and depth == 0:
            yield text[begin:at]
            begin = at + 1
    yield text[begin:]


def parameters_of(signature: str) -> list[str]:
    """The names of the parameters of a function whose text begins with `signature`, without those of UNNAMED."""
    text = without_arrows(signature)
    place = re.match(r".*?\bfn \w+", text, re.DOTALL).end()
    if text[place] == "<":
        place = end_of_brackets(text, place)
    inside = text[place + 1:end_of_brackets(text, place) - 1]
    names = [re.match(r"\s*(?:mut )?(\w+)\s*:", part) for part in parts_between_commas(inside)]
    return [name[1] for name in names if name and name[1] not in UNNAMED]


def docstring_above(lines: list[str], first: int) -> str:
    """The docstring of the function at the line `first`, attributes passed over."""
    said = []
    for line in reversed(lines[:first]):
        if not re.match(r" *(?:///|//|#\[)", line):
            break
        if line.lstrip().startswith("///"):
            said.append(line.strip()[3:])
    return "\n".join(reversed(said))


def unnamed_in(lines: list[str]) -> Iterator[tuple[int, str, list[str]]]:
    """The line, from 1, and the name of each public function of two or more parameters that doesn't name all of them,
    with those that it leaves out."""
    for function in functions_in(lines):
        if not PUBLIC.match(lines[function.first]):
            continue
        names = parameters_of("\n".join(lines[function.first:function.last + 1]))
        said = docstring_above(lines, function.first)
        missing = [name for name in names if f"`{name}`" not in said]
        if len(names) >= 2 and missing:
            yield function.first + 1, function.name, missing


def lacking(top: str) -> list[str]:
    """A line for each public function of the crates at `top` that doesn't name its parameters."""
    faults = []
    for path in sorted(glob.glob(os.path.join(top, "crates", "*", "src", "**", "*.rt"), recursive=True)):
        with open(path, encoding="utf-8") as it:
            lines = it.read().split("\n")
        for number, name, missing in unnamed_in(lines):
            named = ", ".join(f"`{one}`" for one in missing)
            faults.append(f"{os.path.relpath(path, top)}:{number}: the docstring of {name} doesn't name {named}")
    return faults
