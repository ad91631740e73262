"""Computes definitions: each becomes a Python function, by its equations, from the repository's sources and the kit's."""
from __future__ import annotations

import os
import re
import time
from contextlib import contextmanager
from types import CodeType, FunctionType
from typing import Any, Callable, Iterable, Iterator, NamedTuple

from . import library, reading
from .noting import Notes
from .reading import Equation, Node, Unread

Key = tuple[str, str, str]  # a definition: its crate, its module and its name
UNREAD = ("idna",)  # (its tables are large, and no row has a host that isn't ASCII)
STANDARD = ("std", "core", "std_alloc")


class Lacking(Exception):
    """A word that isn't known here, or a value that no equation fits."""


class Found(NamedTuple):
    """What a name leads to: a constructor, a word of the library, or a definition, and its key or name."""

    kind: str
    name: Any


def partly(function: Callable, lacking: int, *given: Any) -> Any:
    """A function of which some arguments are given, as one of the next."""
    if not lacking:
        return function(*given)
    return lambda it: partly(function, lacking - 1, *given, it)


def built(name: str, *given: Any) -> "Maker":
    return Maker((name, *given))


class Maker(tuple):
    """A value of a constructor, which takes further parts."""

    def __call__(self, it: Any) -> "Maker":
        return Maker((*self, it))


class Record(dict):
    """A record: the values of its fields, which nothing changes."""

    __slots__ = ("number",)

    def __hash__(self) -> int:  # type: ignore[override]
        try:
            return self.number
        except AttributeError:
            self.number = hash(frozenset(self.items()))
            return self.number


def without_value(name: str = "no equation fits") -> Any:
    raise Lacking(name)


class Module(NamedTuple):
    """A file of definitions: what it imports, and its definitions' texts by their names; a constructor has none."""

    scope: Any
    definitions: dict[str, str | None]


# ---- where names lead

class Names:
    """The modules of definitions, and what a name in one of them leads to."""

    def __init__(self, theorem: Any, root: str, kit: str) -> None:
        self.theorem, self.root, self.kit = theorem, root, kit
        self.modules: dict[tuple[str, str], Any] = {}

    def path(self, crate: str, module: str) -> str | None:
        folders = [f"{self.root}/crates/{crate}", f"{self.kit}/rattle/{crate}"] + ([f"{self.kit}/rattle/core"] if crate == "std" else [])
        paths = [f"{it}/specs/{module.replace('.', '/')}.antt" for it in folders]
        return next((it for it in paths if os.path.exists(it)), None)

    def module(self, crate: str, module: str) -> Any:
        """The scope and the definitions of a module, by their names; none if there is no such file."""
        key = (crate, module)
        if key not in self.modules:
            path = self.path(crate, module)
            self.modules[key] = self.read(crate, path) if path else None
        return self.modules[key]

    def read(self, crate: str, path: str) -> Any:
        text = self.theorem.text_of(path)
        text = re.sub(r"(?m)^(?:abbrev )?(?:unfoldable )?mutual\n((?:(?:  .*)?\n)+)", lambda it: re.sub(r"(?m)^  ", "", it[1]), text)
        text = re.sub(r"(?m)^module _ .*where\n((?:(?:  .*)?\n)+)", lambda it: re.sub(r"(?m)^  ", "", it[1]), text)
        definitions: dict[str, str | None] = {}
        blocks: list[list[str]] = []
        for line in text.split("\n"):
            if self.theorem.BEGUN.match(line) and not (blocks and blocks[-1][-1].startswith("infix")):
                blocks.append([line])
            elif blocks and line and not line.startswith("--"):
                blocks[-1].append(line)
        for lines in blocks:
            head = next((it for it in lines if not it.startswith(("--", "infix"))), None)
            named = head and self.theorem.NAMED.match(head)
            if named:
                made = [re.match(r"  ((?:\w+ )+):", it) for it in lines] if re.match(r"(?:pub )?data ", head) else []
                definitions[named[1]] = "\n".join(lines)
                definitions.update({name: None for it in made if it for name in it[1].split()})
        return Module(self.theorem.scope_of(text), definitions)

    def found(self, crate: str, module: str, name: str) -> Found:
        if module.endswith("TheConstants"):
            return Found("value", Record(mask=library.SETS[name]))
        if crate == "serde_json" and module == "Read" and name in library.JSON_WORDS:
            return Found("word", library.JSON_WORDS[name])
        if crate in STANDARD and name in library.WORDS:
            return Found("word", library.WORDS[name])
        if ".TheVariants" in f".{module}" or crate in STANDARD and name in ("Some", "None", "Ok", "Err"):
            return Found("constructor", name)
        it = self.module(crate, module) if crate not in UNREAD else None
        if it is None:
            raise Lacking(f"{crate}.{module}.{name}")
        if name in it.definitions:
            return Found("definition", (crate, module, name)) if it.definitions[name] is not None else Found("constructor", name)
        if name in it.scope.names:
            return self.found(*it.scope.names[name])
        if name in library.WORDS:
            return Found("word", library.WORDS[name])
        raise Lacking(f"{crate}.{module}.{name}")

    def named(self, own: tuple[str, str], name: str) -> Found:
        """What a name in this module leads to."""
        it = self.module(*own)
        if name in it.definitions:
            return self.found(*own, name)
        if name in it.scope.names:
            return self.found(*it.scope.names[name])
        if name in library.WORDS:
            return Found("word", library.WORDS[name])
        raise Lacking(f"{name} in {'.'.join(own)}")

    def of_module(self, own: tuple[str, str], alias: str, name: str) -> Found | None:
        it = self.module(*own)
        return self.found(*it.scope.modules[alias], name) if alias in it.scope.modules else None

    def is_constructor(self, own: tuple[str, str], name: str) -> bool:
        try:
            return self.named(own, name).kind == "constructor" or name in ("true", "false", "zero")
        except Lacking:
            return False


# ---- from equations to Python

SIGNS = {
    "+": "({} + {})", "*": "({} * {})", "^": "power({}, {})", "==": "({} == {})", "&&": "({} and {})", "||": "({} or {})", "++": "({} + {})",
    "+ℤ": "({} + {})", "-ℤ": "({} - {})", "*ℤ": "({} * {})", "-": "minus({}, {})", "/": "over({}, {})", "%": "rest({}, {})",
}


class Writer:
    """Writes the Python of an equation; `names` are its variables."""

    def __init__(self, machine: "Machine", own: tuple[str, str], key: Key | None = None) -> None:
        self.machine, self.own, self.key = machine, own, key

    def variable(self, name: str) -> str:
        return "v_" + re.sub(r"\W", lambda it: f"_{ord(it[0]):x}_", name)

    def literal(self, value: Any) -> str:
        return self.machine.constant(value)

    def expression(self, it: Node, names: frozenset[str]) -> str:
        return getattr(self, f"of_{it.kind}")(it, names)

    def of_number(self, it: Node, names: frozenset[str]) -> str:
        return str(it.parts[0])

    def of_text(self, it: Node, names: frozenset[str]) -> str:
        return repr(it.parts[0])

    def of_nil(self, it: Node, names: frozenset[str]) -> str:
        return "()"

    def of_tuple(self, it: Node, names: frozenset[str]) -> str:
        return f"({', '.join(self.expression(one, names) for one in it.parts)})"

    def of_name(self, it: Node, names: frozenset[str]) -> str:
        return self.applied(it, (), names)

    def of_field(self, it: Node, names: frozenset[str]) -> str:
        base, field = it.parts
        if base.kind == "name" and base.parts[0] not in names:
            found = self.machine.names.of_module(self.own, base.parts[0], field)
            if found:
                return self.of_found(found, (), names)
        if field.isdigit():
            return f"{self.expression(base, names)}[{field}]"
        return f"{self.expression(base, names)}[{field!r}]"

    def of_if(self, it: Node, names: frozenset[str]) -> str:
        test, first, second = (self.expression(one, names) for one in it.parts)
        return f"({first} if {test} else {second})"

    def of_lambda(self, it: Node, names: frozenset[str]) -> str:
        variables, body = it.parts
        said = self.expression(body, names | set(variables))
        return "(" + "".join(f"lambda {self.variable(one)}: " for one in variables) + said + ")"

    def of_let(self, it: Node, names: frozenset[str]) -> str:
        name, value, body = it.parts
        return f"(lambda {self.variable(name)}: {self.expression(body, names | {name})})({self.expression(value, names)})"

    def of_do(self, it: Node, names: frozenset[str]) -> str:
        steps, last = it.parts
        if not steps:
            return self.expression(last, names)
        (name, value), later = steps[0], it._replace(parts=(steps[1:], last))
        after = f"(lambda {self.variable(name)}: {self.of_do(later, names | {name})})"
        return f"{self.function(self.machine.names.named(self.own, '◌>>=◌'))}({self.expression(value, names)}, {after})"

    def of_record(self, it: Node, names: frozenset[str]) -> str:
        base, fields = it.parts
        said = ", ".join(f"{name!r}: {self.expression(value, names)}" for name, value in fields)
        return f"Record({{**{self.expression(base, names)}, {said}}})" if base else f"Record({{{said}}})"

    def of_binary(self, it: Node, names: frozenset[str]) -> str:
        sign, left, right = it.parts
        if sign == "∷":
            return self.of_list(it, names)
        said = self.expression(left, names), self.expression(right, names)
        if sign in SIGNS:
            return SIGNS[sign].format(*said)
        return f"{self.function(self.machine.names.named(self.own, f'◌{sign}◌'))}({', '.join(said)})"

    def of_list(self, it: Node, names: frozenset[str]) -> str:
        items = []
        while it.kind == "binary" and it.parts[0] == "∷":
            items.append(self.expression(it.parts[1], names))
            it = it.parts[2]
        last = [] if it.kind == "nil" else [f"*{self.expression(it, names)}"]
        return f"({', '.join(items + last)},)"

    def of_call(self, it: Node, names: frozenset[str]) -> str:
        function, arguments = it.parts
        return self.applied(function, tuple(one for one in arguments if one.kind != "implicit"), names)

    # ---- calls

    def applied(self, function: Node, arguments: tuple[Node, ...], names: frozenset[str]) -> str:
        found = None
        try:
            if function.kind == "name" and function.parts[0] not in names:
                found = self.machine.names.named(self.own, function.parts[0])
            elif function.kind == "field" and function.parts[0].kind == "name" and function.parts[0].parts[0] not in names:
                found = self.machine.names.of_module(self.own, function.parts[0].parts[0], function.parts[1])
        except Lacking as why:
            return f"without_value({str(why)!r})"  # (only if it is computed)
        if found:
            return self.of_found(found, arguments, names)
        said = f"{self.variable(function.parts[0])}" if function.kind == "name" else self.expression(function, names)
        return said + "".join(f"({self.expression(one, names)})" for one in arguments)

    def function(self, found: Found) -> str:
        if found.kind == "word":
            return self.machine.constant(found.name[1])
        if self.key:
            self.machine.users.setdefault(found.name, set()).add(self.key)
        return self.machine.function(found.name)

    def of_found(self, found: Found, arguments: tuple[Node, ...], names: frozenset[str]) -> str:
        said = [self.expression(one, names) for one in arguments]
        if found.name is library.WORDS["cond"] and len(said) == 3:
            return f"({said[1]} if {said[0]} else {said[2]})"
        if found.name == ("matchit", "Seek", "or_else"):
            return f"(one if (one := {said[0]}) != ('None',) else {said[1]})"  # (both would be computed else, at each byte)
        if found.kind == "value":
            return self.literal(found.name)
        if found.kind == "constructor":
            return f"built({', '.join([repr(found.name), *said])})"
        arity = found.name[0] if found.kind == "word" else self.machine.arity(found.name)
        if found.kind == "word" and not arity:
            return self.literal(found.name[1]) + "".join(f"({it})" for it in said)
        function = self.function(found)
        if len(said) < arity:
            return f"partly({', '.join([function, str(arity - len(said)), *said])})"
        return f"{function}({', '.join(said[:arity])})" + "".join(f"({it})" for it in said[arity:])

    # ---- patterns

    def pattern(self, it: Node, at: str, tests: list[str], places: dict[str, str]) -> None:
        """Adds what a value has to be, and where in it the variables stand."""
        if it.kind == "nil":
            tests.append(f"not {at}")
        elif it.kind == "number":
            tests.append(f"{at} == {it.parts[0]}")
        elif it.kind == "tuple":
            for place, one in enumerate(it.parts):
                self.pattern(one, f"{at}[{place}]", tests, places)
        elif it.kind == "binary" and it.parts[0] == "∷":
            tests.append(at)
            self.pattern(it.parts[1], f"{at}[0]", tests, places)
            self.pattern(it.parts[2], f"{at}[1:]", tests, places)
        else:
            self.constructor(it, at, tests, places)

    def constructor(self, it: Node, at: str, tests: list[str], places: dict[str, str]) -> None:
        function, parts = (it.parts[0], it.parts[1]) if it.kind == "call" else (it, ())
        name = function.parts[1] if function.kind == "field" else function.parts[0]
        if name == "_":
            return
        if name == "suc":
            tests.append(f"{at} > 0")
            self.pattern(parts[0], f"({at} - 1)", tests, places)
        elif name == "pos":
            tests.append(f"{at} >= 0")
            self.pattern(parts[0], at, tests, places)
        elif name == "negsuc":
            tests.append(f"{at} < 0")
            self.pattern(parts[0], f"(-{at} - 1)", tests, places)
        elif name in ("true", "false"):
            tests.append(at if name == "true" else f"not {at}")
        elif name == "zero":
            tests.append(f"{at} == 0")
        elif function.kind == "name" and not parts and not self.machine.names.is_constructor(self.own, name):
            places[name] = at
        else:
            tests.append(f"{at}[0] == {name!r}")
            for place, one in enumerate(parts, 1):
                self.pattern(one, f"{at}[{place}]", tests, places)

    def equation(self, it: Equation) -> "Branch":
        tests: list[str] = []
        places: dict[str, str] = {}
        for at, pattern in enumerate(it.patterns):
            self.pattern(pattern, f"a{at}", tests, places)
        variables = [f"{self.variable(name)} = {at}" for name, at in places.items()]
        return Branch(" and ".join(tests) or "True", variables, self.expression(it.body, frozenset(places)))


class Branch(NamedTuple):
    """An equation in Python: the test of its arguments, its variables, and its value."""

    test: str
    variables: list[str]
    value: str


class Written(NamedTuple):
    """A definition in Python: its function's name, how many arguments that takes, the mark of its first equation, and its equations."""

    name: str
    count: int
    mark: int
    branches: list[Branch]

    def given(self) -> str:
        """Its arguments, as a tuple."""
        return "(" + "".join(f"a{at}, " for at in range(self.count)) + ")"

    def text(self, key: Key, before: list[str], returned: Callable[[int, str], str]) -> str:
        """The function, with lines before its equations; `returned` writes what an equation's value is returned as."""
        lines = [f"def {self.name}({', '.join(f'a{at}' for at in range(self.count))}):", *before]
        if key == ("matchit", "Seek", "seek"):
            lines.append(" if not a1: return ('None',)")  # (no row is left; the equations go on in two ways at each byte)
        if not self.count:
            it = self.branches[0]
            return "\n".join([*lines, f" if {self.name!r} in kept: return kept[{self.name!r}]", f" kept[{self.name!r}] = it = {returned(self.mark, it.value)}", " return it"])
        for at, it in enumerate(self.branches):
            lines += [f" if {it.test}:", *(f"  {one}" for one in it.variables), f"  return {returned(self.mark + at, it.value)}"]
        return "\n".join([*lines, " return without_value()"])


class Machine:
    """Python functions of definitions, which are made as they are needed."""

    def __init__(self, names: Names) -> None:
        self.names, self.kept = names, {}
        self.space: dict[str, Any] = {
            "built": built, "partly": partly, "minus": lambda a, b: max(0, a - b), "over": library.WORDS["◌/◌"][1], "rest": library.WORDS["◌%◌"][1],
            "kept": self.kept, "without_value": without_value, "power": library.power, "Record": Record, "now": time.perf_counter,
        }
        self.read: dict[Key, reading.Definition] = {}
        self.numbers: dict[Key, int] = {}
        self.marks: list[tuple[Key, int]] = []
        self.first_marks: dict[Key, int] = {}
        self.waiting: list[Key] = []
        self.written: dict[Key, Written] = {}
        self.users: dict[Key, set[Key]] = {}  # the definitions that name each
        self.quick: dict[Key, CodeType] = {}  # functions that give what was given before for the same arguments
        self.slow: dict[Key, CodeType] = {}  # and those that compute it

    def constant(self, value: Any) -> str:
        name = f"k{len(self.space)}"
        self.space[name] = value
        return name

    def definition(self, key: Key) -> reading.Definition:
        if key not in self.read:
            text = self.names.module(*key[:2]).definitions[key[2]]
            self.read[key] = reading.definition_of(text)
        return self.read[key]

    def arity(self, key: Key) -> int:
        return max((len(it.patterns) for it in self.definition(key).equations), default=0)

    def function(self, key: Key) -> str:
        """The name of a definition's function."""
        if key not in self.numbers:
            self.numbers[key] = len(self.numbers)
            self.waiting.append(key)
        return f"f{self.numbers[key]}"

    def write(self, key: Key, definition: reading.Definition) -> Written:
        """The Python of a definition."""
        if key not in self.first_marks:
            self.first_marks[key] = len(self.marks)
            self.marks += [(key, at) for at in range(len(definition.equations))]
        writer, count = Writer(self, key[:2], key), max((len(it.patterns) for it in definition.equations), default=0)
        return Written(self.function(key), count, self.first_marks[key], [writer.equation(it) for it in definition.equations])

    def compiled(self, key: Key, text: str) -> CodeType:
        """The code of a function."""
        return next(it for it in compile(text, ".".join(key), "exec").co_consts if isinstance(it, CodeType))

    def plain(self, key: Key, written: Written) -> CodeType:
        return self.compiled(key, written.text(key, [], lambda _, value: value))

    def make(self, key: Key) -> None:
        """Makes a definition's function, and those of all that it names."""
        self.function(key)
        while self.waiting:
            it = self.waiting.pop()
            name = self.function(it)
            try:
                written = self.write(it, self.definition(it))
                self.slow[it] = self.plain(it, written)
                self.written[it] = written
                self.space[name] = FunctionType(self.slow[it], self.space, name)
            except (Lacking, Unread, KeyError) as why:
                self.space[name] = self.lacking(it, why)

    def lacking(self, key: Key, why: Exception) -> Callable:
        def tell(*_: Any) -> Any:
            raise Lacking(f"{'.'.join(key)}: {why}")

        return tell

    # ---- what is kept of calls

    def is_of_kit(self, key: Key) -> bool:
        return not os.path.isdir(f"{self.names.root}/crates/{key[0]}")

    def kept_of_kit(self) -> list[Key]:
        """The kit's definitions that the repository's name, and that take no functions."""
        those = [key for key in self.written if self.is_of_kit(key) and any(not self.is_of_kit(it) for it in self.users.get(key, ()))]
        return [key for key in those if self.written[key].count and not self.takes_functions(key)]

    def takes_functions(self, key: Key) -> bool:
        return any("→" in it for it in self.definition(key).types)

    def use(self, key: Key, code: CodeType) -> None:
        """Puts a function's code: who has the function calls the new one."""
        self.space[self.function(key)].__code__ = code

    def take_notes(self, notes: Notes) -> None:
        """Notes each call of the repository's definitions from now on; what the kit's gave is given again."""
        self.space.update(note=notes.note, note_row=notes.note_row)
        for key, written in self.written.items():
            if not self.is_of_kit(key):
                how = "note_row({}, {})" if self.takes_functions(key) else f"note({{}}, {written.given()}, now(), {{}})"
                self.use(key, self.compiled(key, written.text(key, [], how.format)))
        for key in self.kept_of_kit():
            written = self.written[key]
            known = self.constant({})
            before = [f" it = {known}.get({written.given()})", " if it is not None: return it"]
            self.use(key, self.compiled(key, written.text(key, before, lambda _, value: f"{known}.setdefault({written.given()}, {value})")))
            self.quick[key] = self.compiled(key, written.text(key, before, lambda _, value: value))

    def use_notes(self, notes: Notes) -> None:
        """Gives from now on what was noted, if that is quicker than to compute it."""
        for key, written in self.written.items():
            if not self.is_of_kit(key):
                known = notes.worth_keeping(range(written.mark, written.mark + len(written.branches)))
                if known:
                    name = self.constant(known)
                    before = [f" it = {name}.get({written.given()})", " if it is not None: return it"]
                    self.quick[key] = self.compiled(key, written.text(key, before, lambda _, value: value))
            self.use(key, self.quick.get(key, self.slow[key]))

    def resting_on(self, keys: Iterable[Key]) -> set[Key]:
        """The definitions that rest on one of these, themselves among them."""
        found, waiting = set(keys), list(keys)
        while waiting:
            for key in self.users.get(waiting.pop(), set()) - found:
                found.add(key)
                waiting.append(key)
        return found

    @contextmanager
    def changed(self, texts: dict[Key, str]) -> Iterator[None]:
        """Other texts in place of these definitions', in this context."""
        above = [key for key in self.resting_on(texts) if key in self.quick]
        old = {key: self.space.get(self.function(key)) for key in texts}
        try:
            for key in above:
                self.use(key, self.slow[key])
            for key, text in texts.items():
                self.put(key, text)
            yield
        finally:
            for key, it in old.items():
                if key in self.slow:
                    self.use(key, self.slow[key])
                else:
                    self.space[self.function(key)] = it
            for key in above:
                self.use(key, self.quick[key])
            self.kept.clear()

    def put(self, key: Key, text: str) -> None:
        """Puts another text in place of a definition's."""
        code = self.plain(key, self.write(key, reading.definition_of(text)))
        if key in self.slow:
            self.use(key, code)
        else:
            self.space[self.function(key)] = FunctionType(code, self.space, self.function(key))
        self.make(key)
