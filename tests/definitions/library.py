"""The words of the standard library that definitions use, in Python: numbers are ints, lists and pairs tuples, records dicts.

A value of a type of data is a tuple of its constructor's name and its parts. What isn't here is read from the kit's sources.
"""
from __future__ import annotations

import json
from typing import Any, Callable

NONE, NOTHING = ("None",), ()
Test = Callable[[Any], bool]


def found(test: Test, those: tuple) -> tuple:
    return next((("Some", it) for it in those if test(it)), NONE)


def front_length(test: Test, those: tuple) -> int:
    return next((at for at, it in enumerate(those) if not test(it)), len(those))


def back_length(test: Test, those: tuple) -> int:
    return front_length(test, those[::-1])


def place_of(test: Test, those: tuple) -> int:
    return next((at for at, it in enumerate(those) if test(it)), len(those))


def before_first(test: Test, those: tuple) -> tuple:
    return those[: place_of(test, those)]


def after_first(test: Test, those: tuple) -> tuple:
    return those[place_of(test, those) + 1 :]


def joined_with(byte: int, those: tuple) -> tuple:
    out: list[int] = []
    for at, it in enumerate(those):
        out += ([byte] if at else []) + list(it)
    return tuple(out)


def is_utf8(text: tuple) -> bool:
    try:
        bytes(text).decode("utf-8")
    except ValueError:
        return False
    return True


def lines(text: tuple) -> tuple:
    """What `str::lines` gives: a line feed ends a line, and takes the one carriage return before it along."""
    parts = bytes(text).split(b"\n")
    last = [parts[-1]] if parts[-1] else []
    return tuple(tuple(it) for it in [it[:-1] if it.endswith(b"\r") else it for it in parts[:-1]] + last)


def decimal(number: int) -> tuple:
    return tuple(str(number).encode())


def folded(step: Callable[[Any], Callable[[Any], Any]], start: Any, those: tuple) -> Any:
    for it in those:
        start = step(start)(it)
    return start


def order_of(left: Any, right: Any) -> tuple:
    return ("Less",) if left < right else ("Equal",) if left == right else ("Greater",)


def order_of_lists(order: Callable[[Any], Callable[[Any], tuple]], left: tuple, right: tuple) -> tuple:
    for one, other in zip(left, right):
        if (found := order(one)(other)) != ("Equal",):
            return found
    return order_of(len(left), len(right))


def same_at_each_place(test: Callable[[Any], Test], left: tuple, right: tuple) -> bool:
    return len(left) == len(right) and all(test(one)(other) for one, other in zip(left, right))


def onto_first(byte: Any, lists: tuple) -> tuple:
    return ((byte, *lists[0]), *lists[1:]) if lists else ((byte,),)


def chars(text: tuple) -> tuple:
    return tuple(map(ord, bytes(text).decode("utf-8", "replace")))


# ---- the sets of bytes that the parts of a URL escape (URL Standard, 1.3 and 3)

def mask_of(*parts: str | int) -> int:
    """The set of the bytes of these texts, and of these sets."""
    mask = 0
    for part in parts:
        mask |= part if isinstance(part, int) else sum(1 << ord(it) for it in set(part))
    return mask


CONTROLS = mask_of("".join(map(chr, range(32))), "\x7f")
FRAGMENT = mask_of(CONTROLS, ' "<>`')
PATH = mask_of(FRAGMENT, "#?^{}")
USERINFO = mask_of(PATH, "/:;=@[\\]^|")
PATH_SEGMENT = mask_of(PATH, "/%")
QUERY = mask_of(CONTROLS, ' "#<>')
FORBIDDEN_HOST = mask_of("\0\t\n\r #/:<>?@[\\]^|")
SETS = {
    "CONTROLS": CONTROLS, "FRAGMENT": FRAGMENT, "PATH": PATH, "USERINFO": USERINFO, "PATH_SEGMENT": PATH_SEGMENT, "QUERY": QUERY,
    "SPECIAL_PATH_SEGMENT": mask_of(PATH_SEGMENT, "\\"), "OPAQUE_PATH": mask_of(CONTROLS, "#?"), "OPAQUE_PATH_START": mask_of(CONTROLS, "#?/"),
    "SPECIAL_QUERY": mask_of(QUERY, "'"), "FORBIDDEN_HOST": FORBIDDEN_HOST, "FORBIDDEN_DOMAIN": mask_of(FORBIDDEN_HOST, CONTROLS, "%"),
}


# ---- JSON, as RFC 8259 has it: the last value of a key stands, the keys are in order, and at most 127 levels nest

def refused(text: str) -> Any:
    raise ValueError(text)


def number_said(text: str) -> tuple:
    value = int(text)
    if text == "-0" or not -(2**63) <= value < 2**64:
        return ("number", ("float", float(text)))
    return ("number", ("negative", value) if value < 0 else ("unsigned", value))


def fraction_said(text: str) -> tuple:
    value = float(text)
    return refused(text) if value in (float("inf"), float("-inf")) else ("number", ("float", value))


def data_of(value: Any, depth: int) -> tuple:
    if isinstance(value, tuple):
        return value
    if value is None:
        return ("null",)
    if isinstance(value, bool):
        return ("boolean", value)
    if isinstance(value, str):
        return ("string", tuple(value.encode("utf-8", "surrogateescape")))
    if not depth:
        refused("too deep")
    made: tuple = ("no_items",) if isinstance(value, list) else ("no_members",)
    if isinstance(value, list):
        for it in reversed(value):
            made = ("item", data_of(it, depth - 1), made)
        return ("array", made)
    for key in sorted(value, key=lambda it: it.encode("utf-8"), reverse=True):
        made = ("member", tuple(key.encode("utf-8")), data_of(value[key], depth - 1), made)
    return ("object", made)


def json_read(text: tuple) -> tuple:
    """A JSON text's value. One that isn't UTF-8 may have any bytes between quotes."""
    try:
        value = json.loads(bytes(text).decode("utf-8", "strict" if is_utf8(text) else "surrogateescape"), parse_int=number_said, parse_float=fraction_said, parse_constant=refused)
        return ("Some", data_of(value, 127))
    except (ValueError, RecursionError):
        return NONE


# ---- numbers that a turned equation may make too large

MOST = 1 << 20


class TooLarge(Exception):
    """A number or list that is larger than any in the tables."""


def power(base: int, exponent: int) -> int:
    if exponent > 4096 and base > 1:
        raise TooLarge(f"{base} ^ {exponent}")
    return base**exponent


def replicated(count: int, it: Any) -> tuple:
    if count > MOST:
        raise TooLarge(f"replicate {count}")
    return (it,) * count


# ---- the words by their names: how many arguments each takes, and what it gives

WORDS: dict[str, tuple[int, Any]] = {
    "true": (0, True), "false": (0, False), "zero": (0, 0), "[]": (0, ()), "tt": (0, ("tt",)), "no_keys": (0, ("no_keys",)),
    "suc": (1, lambda n: n + 1), "pos": (1, lambda n: n), "negsuc": (1, lambda n: -n - 1), "neg_ℤ": (1, lambda n: -n), "pred": (1, lambda n: max(0, n - 1)),
    "nat_abs": (1, abs), "unsigned_abs": (1, abs), "not": (1, lambda b: not b),
    "min": (2, min), "max": (2, max), "nat_lt": (2, lambda a, b: a < b), "nat_le": (2, lambda a, b: a <= b), "nat_eq": (2, lambda a, b: a == b),
    "ltb": (2, lambda a, b: a < b), "leb": (2, lambda a, b: a <= b), "eqb": (2, lambda a, b: a == b),
    "int_lt": (2, lambda a, b: a < b), "int_le": (2, lambda a, b: a <= b), "bytes_eq": (2, lambda a, b: a == b),
    "◌==◌": (2, lambda a, b: a == b), "◌+◌": (2, lambda a, b: a + b), "◌-◌": (2, lambda a, b: max(0, a - b)), "◌*◌": (2, lambda a, b: a * b),
    "◌/◌": (2, lambda a, b: a // b if b else 0), "◌%◌": (2, lambda a, b: a % b if b else a), "◌^◌": (2, power),
    "◌++◌": (2, lambda a, b: a + b), "◌∷◌": (2, lambda a, b: (a, *b)), "◌&&◌": (2, lambda a, b: a and b), "◌||◌": (2, lambda a, b: a or b),
    "◌+ℤ◌": (2, lambda a, b: a + b), "◌-ℤ◌": (2, lambda a, b: a - b), "◌*ℤ◌": (2, lambda a, b: a * b),
    "cond": (3, lambda b, x, y: x if b else y), "codes": (1, lambda text: tuple(map(ord, text))), "map": (2, lambda f, xs: tuple(f(x) for x in xs)), "reverse": (1, lambda xs: xs[::-1]), "length": (1, len),
    "take": (2, lambda n, xs: xs[:n]), "drop": (2, lambda n, xs: xs[n:]), "replicate": (2, replicated),
    "filter": (2, lambda f, xs: tuple(x for x in xs if f(x))), "find": (2, found), "list_any": (2, lambda f, xs: any(f(x) for x in xs)), "list_all": (2, lambda f, xs: all(f(x) for x in xs)),
    "sum": (1, sum), "sum_by": (2, lambda f, xs: sum(f(x) for x in xs)), "fold": (3, folded), "flat_map": (2, lambda f, xs: tuple(y for x in xs for y in f(x))),
    "prefix_len": (2, front_length), "suffix_len": (2, back_length), "position_or_len": (2, place_of), "before_first": (2, before_first), "after_first": (2, after_first),
    "join_with_byte": (2, joined_with), "concat": (1, lambda xs: tuple(y for x in xs for y in x)), "slice_index": (2, lambda xs, n: xs[n] if n < len(xs) else 0),
    "slice_index_or": (3, lambda xs, n, d: xs[n] if n < len(xs) else d), "get_or": (3, lambda xs, n, d: xs[n] if n < len(xs) else d), "slice_range": (3, lambda xs, a, b: xs[a:max(a, b)]),
    "is_some": (1, lambda o: o != NONE), "is_none": (1, lambda o: o == NONE), "unwrap_or": (2, lambda o, d: d if o == NONE else o[1]),
    "option_map": (2, lambda f, o: o if o == NONE else ("Some", f(o[1]))), "option_and_then": (2, lambda f, o: o if o == NONE else f(o[1])), "option_or": (2, lambda o, p: p if o == NONE else o),
    "result_unwrap_or": (2, lambda r, d: r[1] if r[0] == "Ok" else d), "is_ok": (1, lambda r: r[0] == "Ok"), "is_err": (1, lambda r: r[0] == "Err"),
    "chars": (1, chars), "is_utf8": (1, is_utf8), "lines": (1, lines), "decimal": (1, decimal), "nat_cmp": (2, order_of), "slice_cmp": (3, order_of_lists), "pointwise": (3, same_at_each_place),
    "bit_at": (2, lambda mask, place: mask >> place & 1), "bit_and": (2, lambda one, other: one & other), "onto_first": (2, onto_first),
}
JSON_WORDS: dict[str, tuple[int, Any]] = {"read": (1, json_read)}
