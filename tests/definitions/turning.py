"""Turned equations: each differs from what stands by one place in one equation, and says something else in the same types."""
from __future__ import annotations

import re
from typing import Callable, Iterator, NamedTuple

from . import reading
from .reading import Definition, Equation, Node
from .data import Types, plain

# words, and others that take and give the same
TWINS = {
    "nat_lt": ("nat_le",), "nat_le": ("nat_lt",), "int_lt": ("int_le",), "int_le": ("int_lt",), "min": ("max",), "max": ("min",),
    "list_any": ("list_all",), "list_all": ("list_any",), "is_some": ("is_none",), "is_none": ("is_some",),
    "before_first": ("after_first",), "after_first": ("before_first",), "take": ("drop",), "drop": ("take",),
}
# words whose last argument is a list, of which a turned equation takes a front
OVER_LISTS = {"map", "filter", "list_any", "list_all", "find", "length", "sum", "sum_by", "flat_map", "fold", "reverse", "position_or_len", "prefix_len"}
FRONTS = {True: 40, False: 3}  # how much of a list is taken: of bytes, and of others
SIDES = {"&&": ("||",), "||": ("&&",), "+ℤ": ("-ℤ",), "-ℤ": ("+ℤ",), "+": (), "-": (), "++": (), "*": (), "/": (), "%": ()}
CONSTANTS = {"Bool": ("true", "false"), "ℕ": ("0",)}
# how else two texts are compared
COMPARED = {
    "their lengths": "(length {0} == length {1})",
    "their first bytes": "(bytes_eq (take 1 {0}) (take 1 {1}))",
    "their first 8 bytes": "(bytes_eq (take 8 {0}) (take 8 {1}))",
    "all but their first bytes": "(bytes_eq (drop 1 {0}) (drop 1 {1}))",
}


class Turn(NamedTuple):
    """A place in a definition's text, and what takes it."""

    equation: int
    start: int
    end: int
    new: str


def words_in(text: str) -> set[str]:
    return set(re.findall(rf"(?<![\w'.])({reading.WORD})", re.sub(r'"(?:[^"\\]|\\.)*"', " ", text)))


def parts_of(it: Node) -> Iterator[Node]:
    """The nodes right below a node."""
    for part in it.parts:
        if isinstance(part, Node):
            yield part
        elif isinstance(part, tuple):
            for one in part:
                if isinstance(one, Node):
                    yield one
                elif isinstance(one, tuple) and len(one) == 2 and isinstance(one[1], Node):
                    yield one[1]


def argument_of(said: str, head: str) -> str | None:
    """`T` of `head T`."""
    return said[len(head) + 1 :].strip().removeprefix("(").removesuffix(")") if said.startswith(f"{head} ") else None


class Around(NamedTuple):
    """What a file's names mean: another constructor for one as it is written; the types of a definition; whether a name is a constructor."""

    sibling: Callable[[str], str | None]
    types_of: Callable[[str], tuple[str, ...] | None]
    is_constructor: Callable[[str], bool]


class Turner:
    """Makes the turned equations of one definition."""

    def __init__(self, text: str, definition: Definition, types: Types, around: "Around") -> None:
        self.text, self.definition, self.types = text, definition, types
        self.sibling, self.types_of, self.is_constructor = around
        self.turns: dict[Turn, None] = {}
        self.compared: dict[str, list[Turn]] = {it: [] for it in COMPARED}  # (each place where texts are compared, in each of these ways)
        self.at, self.variables = 0, {}

    def said(self, it: Node) -> str:
        return self.text[it.start : it.end]

    def closed(self, it: Node) -> str:
        """A node's text, in brackets if it is more than a word."""
        said = self.said(it)
        return said if it.kind in ("name", "field", "number", "nil", "text", "tuple") or said.startswith("(") and it.kind == "call" and said.endswith(")") and self.is_closed(said) else f"({said})"

    def is_closed(self, said: str) -> bool:
        depth = 0
        for at, it in enumerate(said):
            depth += (it == "(") - (it == ")")
            if not depth and at < len(said) - 1:
                return False
        return True

    def add(self, it: Node, new: str) -> None:
        if " ".join(new.split()) not in (" ".join(self.said(it).split()), f"({' '.join(self.said(it).split())})"):
            self.turns[Turn(self.at, it.start, it.end, new)] = None

    # ---- whole equations

    def all(self) -> list[Turn]:
        result = self.definition.types[-1]
        for self.at, it in enumerate(self.definition.equations):
            self.variables = {}
            for pattern, said in zip(it.patterns, self.definition.types):
                self.bind(pattern, plain(said))
            self.whole(it, plain(result))
            self.walk(it.body)
        return list(self.turns)

    def bind(self, it: Node, said: str) -> None:
        """Notes the types of the variables in a pattern, as far as they are plain."""
        if it.kind == "name" and re.fullmatch(r"[^\W\d_][\w']*", it.parts[0]) and not self.is_constructor(it.parts[0]):
            self.variables[it.parts[0]] = said
        elif it.kind == "binary" and it.parts[0] == "∷":
            inner = argument_of(said, "List")
            self.bind(it.parts[1], inner or "?")
            self.bind(it.parts[2], said)
        elif it.kind == "call" and it.parts[0].kind == "name":
            inner = argument_of(said, "Option") if it.parts[0].parts[0] == "Some" else None
            for one in it.parts[1]:
                self.bind(one, inner or "?")
        elif it.kind == "tuple":
            for one in it.parts:
                self.bind(one, "?")

    def whole(self, it: Equation, result: str) -> None:
        """An equation with the result of another one, or with nothing."""
        others = self.definition.equations
        for other in (others[(self.at + 1) % len(others)], others[self.at - 1]):
            bound = set().union(*(words_in(self.said(one)) for one in other.patterns)) if other.patterns else set()
            here = set().union(*(words_in(self.said(one)) for one in it.patterns)) if it.patterns else set()
            if other is not it and words_in(self.said(other.body)) & bound <= here:
                self.add(it.body, self.said(other.body))
        empty = ("None",) if result.startswith("Option ") else ("[]",) if result.startswith("List ") else CONSTANTS.get(result, ())
        for one in empty:
            if it.body.kind != "number" and "List ℕ → " not in result:
                self.add(it.body, one)
        if result.startswith("List ") and result != "List ℕ" and not self.is_short(it.body):
            self.add(it.body, f"take {FRONTS[False]} ({self.said(it.body)})")

    def is_short(self, it: Node) -> bool:
        """Whether a list is written out, and has no more items than a front."""
        for _ in range(FRONTS[False] + 1):
            if it.kind == "nil":
                return True
            it = it.parts[2] if it.kind == "binary" and it.parts[0] == "∷" else Node("other", 0, 0, ())
        return False

    # ---- places in an equation

    def walk(self, it: Node) -> None:
        getattr(self, f"of_{it.kind}", lambda _: None)(it)
        bound = dict(self.variables)
        if it.kind == "lambda":
            for one in it.parts[0]:
                self.variables.pop(one, None)
        for one in parts_of(it):
            self.walk(one)
        self.variables = bound

    def of_number(self, it: Node) -> None:
        value = it.parts[0]
        self.add(it, str(value + 1))
        if value:
            self.add(it, str(value - 1))

    def of_text(self, it: Node) -> None:
        said = self.said(it)[1:-1]
        if said and "\\" not in said[-2:]:
            self.add(it, f'"{said[:-1]}{"x" if said[-1] != "x" else "y"}"')
            self.add(it, f'"{said[:-1]}"')

    def of_name(self, it: Node) -> None:
        name = it.parts[0]
        for other in TWINS.get(name, ()):
            self.add(it, other)
        if name in ("true", "false"):
            self.add(it, "false" if name == "true" else "true")
        elif name in self.variables:
            same = [one for one, said in self.variables.items() if one != name and said == self.variables[name] != "?"]
            for one in same[:1]:
                self.add(it, one)
        elif other := self.sibling(name):
            self.add(it, other)

    def of_field(self, it: Node) -> None:
        base, field = it.parts
        if field.isdigit():
            return
        if other := self.sibling(self.said(it)):
            self.add(it, other)
            return
        having = [one for one in self.types.records if field in one]
        if having:
            same = set.intersection(*({name for name, said in one.items() if said == one[field] and name != field} for one in having))
            for one in sorted(same)[:2]:
                self.add(it, f"{self.said(base)}.{one}")

    def of_binary(self, it: Node) -> None:
        sign, left, right = it.parts
        if sign in SIDES:
            self.add(it, self.closed(left))
            if sign in ("&&", "||", "++", "+"):
                self.add(it, self.closed(right))
            for other in SIDES[sign]:
                self.add(it, f"({self.closed(left)} {other} {self.closed(right)})")
        if sign in ("++", "-", "-ℤ", "/", "%"):
            self.add(it, f"({self.closed(right)} {sign} {self.closed(left)})")
        elif sign == "==":
            if right.parts != (0,):
                self.add(it, f"(nat_le {self.closed(left)} {self.closed(right)})")
            self.add(it, f"(nat_le {self.closed(right)} {self.closed(left)})")
        elif sign == "∷":
            self.add(it, self.closed(right))
        elif sign == ">>=":
            self.steps(it)

    def steps(self, it: Node) -> None:
        """Two steps in the other order."""
        _, first, then = it.parts
        if then.kind != "lambda" or len(then.parts[0]) != 1:
            return
        (name,), body = then.parts
        head = self.text[then.start : body.start]
        if body.kind == "binary" and body.parts[0] == ">>=" and body.parts[2].kind == "lambda" and name not in words_in(self.said(body.parts[1])):
            _, second, last = body.parts
            after = self.text[last.start : last.parts[1].start]
            self.add(it, f"({self.closed(second)} >>= {after}{self.closed(first)} >>= {head}{self.said(last.parts[1])})")
        if refusal := self.refusal(body):
            test, fault, later = refusal
            if name not in words_in(self.said(test) + " " + self.said(fault)):
                self.add(it, f"(refuse_if {self.closed(test)} {self.closed(fault)} ({self.closed(first)} >>= {head}{self.said(later)}))")

    def refusal(self, it: Node) -> tuple[Node, ...] | None:
        """The test, the fault and what follows of a refusal."""
        is_one = it.kind == "call" and it.parts[0].kind == "name" and it.parts[0].parts[0] == "refuse_if" and len(it.parts[1]) == 3
        return it.parts[1] if is_one else None

    def of_if(self, it: Node) -> None:
        test, first, second = it.parts
        self.add(it, self.closed(first))
        self.add(it, self.closed(second))
        if second.kind == "if":
            other, inner, last = second.parts
            self.add(it, f"(if {self.said(other)} then {self.said(inner)} else (if {self.said(test)} then {self.said(first)} else {self.said(last)}))")

    def of_do(self, it: Node) -> None:
        steps, last = it.parts
        for (name, value), (other, later) in zip(steps, steps[1:]):
            if name not in words_in(self.said(later)):
                start = self.text.rfind("\n", 0, value.start) + 1
                place = Node("steps", start, later.end, ())
                first, second = self.text[start : value.end], self.text[self.text.rfind("\n", 0, later.start) + 1 : later.end]
                self.add(place, f"{second}\n{first}")

    def of_call(self, it: Node) -> None:
        function, arguments = it.parts
        name = self.said(function)
        if refusal := self.refusal(it):
            self.of_refusal(it, *refusal)
        elif name == "not":
            self.add(it, self.closed(arguments[0]))
        elif name == "bytes_eq":
            self.of_compared(it, arguments)
        elif name in ("filter", "reverse", "take", "drop"):
            self.add(it, self.closed(arguments[-1]))
        if name in OVER_LISTS and (len(arguments) > 1 or name in ("length", "sum", "reverse")):
            self.front(arguments[-1], self.variables.get(self.said(arguments[-1]), ""))
        said = self.types_of(name) if function.kind in ("name", "field") else None
        if said:
            self.of_arguments(it, [plain(one) for one in said[:-1]], arguments)

    def of_compared(self, it: Node, texts: tuple[Node, ...]) -> None:
        """Two texts, of which the second may come later, compared by another thing than all of them."""
        first, second = (*map(self.closed, texts), "other")[:2]
        for way, said in COMPARED.items():
            new = said.format(first, second) if len(texts) == 2 else f"(λ (other : List ℕ). {said.format(first, second)})"
            self.add(it, new)
            self.compared[way].append(Turn(self.at, it.start, it.end, new))

    def of_arguments(self, it: Node, said: list[str], arguments: tuple[Node, ...]) -> None:
        """Two arguments of a type in each other's place, or a front of a list."""
        for at in range(min(len(said), len(arguments)) - 1):
            if said[at] == said[at + 1] and "→" not in said[at]:
                first, second = arguments[at], arguments[at + 1]
                place = Node("arguments", first.start, second.end, ())
                self.add(place, f"{self.said(second)} {self.said(first)}")
        for one, kind in zip(arguments, said):
            if kind.startswith("List "):
                self.front(one, kind)

    def front(self, it: Node, kind: str) -> None:
        """A front of a list that has a name."""
        if it.kind == "name" and it.parts[0] in self.variables or it.kind == "field":
            self.add(it, f"(take {FRONTS[kind == 'List ℕ']} {self.closed(it)})")
            self.add(it, f"(drop 1 {self.closed(it)})")

    def of_refusal(self, it: Node, test: Node, fault: Node, later: Node) -> None:
        self.add(it, self.closed(later))
        if other := self.refusal(later):
            inner = f"(refuse_if {self.closed(test)} {self.closed(fault)} {self.closed(other[2])})"
            self.add(it, f"(refuse_if {self.closed(other[0])} {self.closed(other[1])} {inner})")
        elif later.kind == "binary" and later.parts[0] == ">>=" and later.parts[2].kind == "lambda":
            _, first, then = later.parts
            head = self.text[then.start : then.parts[1].start]
            self.add(it, f"({self.closed(first)} >>= {head}refuse_if {self.closed(test)} {self.closed(fault)} {self.closed(then.parts[1])})")

    def of_record(self, it: Node) -> None:
        base, fields = it.parts
        names = {name for name, _ in fields}
        having = [one for one in self.types.records if names <= set(one) and (base or len(one) == len(names))]
        if not having:
            return
        for at, (name, value) in enumerate(fields):
            if base:
                rest = "; ".join(f"{one} = {self.said(other)}" for one, other in fields if one != name)
                self.add(it, f"(record {self.closed(base)} {{ {rest} }})" if rest else self.closed(base))
            kind = having[0][name]
            empty = "None" if kind.startswith("Option ") else "[]" if kind.startswith("List ") else "0" if kind == "ℕ" else None
            if empty:
                self.add(value, empty)
            for other, after in fields[at + 1 :]:
                if having[0][other] == kind:
                    between = self.text[value.end : after.start]
                    self.add(Node("fields", value.start, after.end, ()), f"{self.said(after)}{between}{self.said(value)}")
                    break
