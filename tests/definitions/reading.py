"""Reads definitions: their types, and equations as trees whose nodes know their places in the text."""
from __future__ import annotations

import re
from typing import NamedTuple

WORD = r"[^\W\d][\w']*(?:-[^\W\d][\w']*)*"
TOKEN = re.compile(
    rf'(?P<space>\s+|--[^\n]*)|(?P<text>"(?:[^"\\]|\\.)*")|(?P<number>0x[0-9A-Fa-f_]+|\d[\d_]*)'
    rf"|(?P<after>\.(?:\d+|{WORD}))|(?P<sign>◌>>=◌|◌[^\s\w(){{}}\[\],;]+◌|>>=|\+\+|==|&&|\|\||[-+*≤<]ℤ|\[\]|[-+*/%^∷≡≢×→←λ=.:;,(){{}}\[\]<≤⊎¬@])|(?P<name>{WORD}|_)"
)
KEYWORDS = {"if", "then", "else", "let", "in", "do", "record"}
# how tightly operators bind, and whether several group to the right
LEVELS = {
    "→": (0, "right"), "⊎": (1, "right"), "×": (2, "right"), "≡": (4, "none"), "≢": (4, "none"), "+ℤ": (6, "left"), "-ℤ": (6, "left"), "*ℤ": (7, "left"),
    ">>=": (10, "left"), "||": (30, "left"), "&&": (35, "left"), "==": (40, "none"),
    "<": (50, "none"), "≤": (50, "none"), "<ℤ": (50, "none"), "≤ℤ": (50, "none"),
    "+": (65, "left"), "-": (65, "left"), "++": (65, "left"), "∷": (67, "right"), "*": (70, "left"), "/": (70, "left"), "%": (70, "left"), "^": (75, "right"),
}


class Unread(Exception):
    """A text that isn't read."""


class Token(NamedTuple):
    kind: str
    text: str
    start: int
    end: int
    column: int
    is_first: bool  # of its line


class Node(NamedTuple):
    """A part of an equation: its kind, its place in the text, and its parts.

    name (text), field (of, name), number (value), text (value), call (function, arguments), binary (sign, left, right),
    if (test, then, else), lambda (names, body), let (name, value, body), do (steps of a name and a value, last),
    record (base or none, fields with values), tuple (items), nil ()
    """

    kind: str
    start: int
    end: int
    parts: tuple


class Equation(NamedTuple):
    """One equation: its patterns, its right side, and its place in the definition's text."""

    name: str
    patterns: tuple[Node, ...]
    body: Node
    start: int
    end: int


class Definition(NamedTuple):
    """A definition's name, the types of its parameters and of its result as texts, and its equations."""

    name: str
    types: tuple[str, ...]
    equations: tuple[Equation, ...]


def tokens_of(text: str, start: int, end: int) -> list[Token]:
    found, at, line = [], start, text.rfind("\n", 0, start) + 1
    fresh = not text[line:start].strip()
    while at < end:
        it = TOKEN.match(text, at, end)
        if not it:
            raise Unread(f"`{text[at:at + 20]}`")
        at = it.end()
        if it.lastgroup == "space":
            if "\n" in it[0]:
                line, fresh = it.start() + it[0].rfind("\n") + 1, True
            continue
        found.append(Token(it.lastgroup, it[0], it.start(), at, it.start() - line, fresh))
        fresh = False
    return found


class Reader:
    """Reads expressions from tokens, from left to right."""

    def __init__(self, text: str, tokens: list[Token]) -> None:
        self.text, self.tokens, self.at, self.limits, self.opened = text, tokens, 0, [], set()

    def peek(self) -> Token | None:
        if self.at >= len(self.tokens):
            return None
        it = self.tokens[self.at]
        if self.limits and it.is_first and it.column <= self.limits[-1] and self.at not in self.opened:
            return None
        return it

    def is_at(self, *texts: str) -> bool:
        it = self.peek()
        return it is not None and it.kind != "text" and it.text in texts

    def take(self, *texts: str) -> Token:
        it = self.peek()
        if it is None or texts and it.text not in texts:
            raise Unread(f"{texts} wanted, and not `{it.text if it else 'the end'}`")
        self.at += 1
        return it

    # ---- expressions

    def expression(self, level: int = 0) -> Node:
        left = self.operand()
        while True:
            it = self.peek()
            if it is None or it.kind != "sign" or it.text not in LEVELS:
                return left
            own, side = LEVELS[it.text]
            if own < level:
                return left
            self.take()
            right = self.expression(own + (side != "right"))
            left = Node("binary", left.start, right.end, (it.text, left, right))

    def operand(self) -> Node:
        it = self.peek()
        if it is None:
            raise Unread("an expression wanted, and not the end")
        if it.text == "λ":
            return self.function()
        if it.kind == "name" and it.text in ("if", "let", "do"):
            return getattr(self, f"{it.text}_")()
        return self.call()

    def function(self) -> Node:
        start = self.take("λ").start
        names = []
        while not self.is_at("."):
            it = self.take()
            if it.text == "(":
                names += self.typed_names()
            elif it.text == ":":
                self.skip_type()
            else:
                names.append(it.text)
        self.take(".")
        body = self.expression()
        return Node("lambda", start, body.end, (tuple(names), body))

    def skip_type(self) -> None:
        depth = 0
        while depth or not self.is_at("."):
            it = self.take()
            depth += (it.text in "([{") - (it.text in ")]}")

    def typed_names(self) -> list[str]:
        """The names of `(a b : Type)`, after its bracket."""
        names, depth, typed = [], 1, False
        while depth:
            it = self.take()
            depth += (it.text == "(") - (it.text == ")")
            typed = typed or it.text == ":"
            if not typed and depth:
                names.append(it.text)
        return names

    def if_(self) -> Node:
        start = self.take("if").start
        test = self.expression()
        self.take("then")
        first = self.expression()
        self.take("else")
        second = self.expression(5)
        return Node("if", start, second.end, (test, first, second))

    def let_(self) -> Node:
        start = self.take("let").start
        name = self.take().text
        if self.is_at(":"):
            while not self.is_at("="):
                self.take()
        self.take("=")
        value = self.expression()
        self.take("in")
        body = self.expression()
        return Node("let", start, body.end, (name, value, body))

    def do_(self) -> Node:
        start = self.take("do").start
        column, steps = self.tokens[self.at].column, []
        while True:
            self.opened.add(self.at)
            self.limits.append(column)
            name = None
            if self.tokens[self.at + 1].text == "←":
                name = self.take().text
                self.take("←")
            value = self.expression()
            self.limits.pop()
            if name is None:
                return Node("do", start, value.end, (tuple(steps), value))
            steps.append((name, value))

    def call(self) -> Node:
        function = self.atom()
        arguments = []
        while self.begins_atom():
            arguments.append(self.atom())
        if not arguments:
            return function
        if self.is_at("λ"):
            arguments.append(self.function())
        return Node("call", function.start, arguments[-1].end, (function, tuple(arguments)))

    def begins_atom(self) -> bool:
        it = self.peek()
        if it is None:
            return False
        if it.kind == "name":
            return it.text not in KEYWORDS or it.text == "record"
        return it.kind in ("text", "number") or it.text in ("(", "[]", "{") or it.text.startswith("◌")

    def atom(self) -> Node:
        it = self.take()
        if it.text == "record":
            node = self.record(it.start)
        elif it.kind == "number":
            node = Node("number", it.start, it.end, (int(it.text.replace("_", ""), 0),))
        elif it.kind == "text":
            node = Node("text", it.start, it.end, (it.text[1:-1].encode().decode("unicode_escape").encode("latin-1").decode(),))
        elif it.text == "[]":
            node = Node("nil", it.start, it.end, ())
        elif it.text == "(":
            node = self.bracketed(it.start)
        elif it.text == "{":
            while not self.is_at("}"):
                self.take()
            node = Node("implicit", it.start, self.take().end, ())
        elif it.kind == "name" and it.text not in KEYWORDS or it.text.startswith("◌"):
            node = Node("name", it.start, it.end, (it.text,))
        else:
            raise Unread(f"`{it.text}` begins no expression")
        while (later := self.peek()) and later.kind == "after" and later.start == node.end:
            self.take()
            node = Node("field", node.start, later.end, (node, later.text[1:]))
        return node

    def record(self, start: int) -> Node:
        base = None if self.is_at("{") else self.atom()
        self.take("{")
        fields = []
        while not self.is_at("}"):
            name = self.take().text
            self.take("=")
            fields.append((name, self.expression()))
            if self.is_at(";"):
                self.take()
        return Node("record", start, self.take("}").end, (base, tuple(fields)))

    def bracketed(self, start: int) -> Node:
        """An expression in brackets, which has their places, or a tuple."""
        limits, self.limits = self.limits, []
        items = [self.expression()]
        if self.is_at(":"):
            while not self.is_at(")"):
                self.take()
            items = [Node("binder", start, start, (self.text[items[0].start : items[0].end],))]
        while self.is_at(","):
            self.take()
            if not self.is_at(")"):
                items.append(self.expression())
        end = self.take(")").end
        self.limits = limits
        return Node("tuple", start, end, tuple(items)) if len(items) > 1 else items[0]._replace(start=start, end=end)


# ---- definitions

def equation_of(text: str, start: int, end: int) -> Equation:
    tokens = tokens_of(text, start, end)
    depth = 0
    for at, it in enumerate(tokens):
        depth += (it.text in "([{") - (it.text in ")]}")
        if it.text == "=" and not depth:
            break
    else:
        raise Unread("no `=`")
    left, right = Reader(text, tokens[:at]), Reader(text, tokens[at + 1 :])
    side = left.expression()
    body = right.expression()
    if left.peek() or right.peek():
        raise Unread(f"`{(left.peek() or right.peek()).text}` is left")
    if side.kind == "binary":
        return Equation(f"◌{side.parts[0]}◌", side.parts[1:], body, start, end)
    if side.kind == "if":
        return Equation("if◌then◌else◌", side.parts, body, start, end)
    name, patterns = (side.parts[0].parts[0], side.parts[1]) if side.kind == "call" else (side.parts[0], ())
    return Equation(name, tuple(it for it in patterns if it.kind != "implicit"), body, start, end)


def types_of(said: str) -> tuple[str, ...]:
    """The types of the parameters, and of the result, that a type has at its top."""
    parts, depth, last = [], 0, 0
    for at, it in enumerate(said):
        depth += (it in "([{") - (it in ")]}")
        if it == "→" and not depth:
            parts.append(said[last:at].strip())
            last = at + 1
    parts.append(said[last:].strip())
    return tuple(" ".join(it.split()) for it in parts if not it.strip().startswith("{"))


def definition_of(text: str) -> Definition:
    """The definition of a text, which may have comments above it."""
    starts = [it.start() for it in re.finditer(r"(?m)^(?![ )}]|--|infix|$)", text)]
    if not starts:
        raise Unread("nothing stands here")
    ends = [*starts[1:], len(text)]
    head = text[starts[0] : ends[0]]
    found = re.match(r"(?:(?:abbrev|unfoldable|pub) )*(\S+)(?: \{[^}]*\})* : (.*)", re.sub(r"(?m)--.*$", "", head), re.DOTALL)
    if not found:
        raise Unread(f"no type: {head[:40]}")
    equations = tuple(equation_of(text, start, start + len(text[start:end].rstrip())) for start, end in zip(starts[1:], ends[1:]))
    return Definition(found[1], types_of(found[2]), equations)
