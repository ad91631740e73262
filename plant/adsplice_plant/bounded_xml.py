"""XML from outside, read within bounds by the standard library's expat: no DOCTYPE, so no entity of its own, and so many bytes, elements and
levels."""
from __future__ import annotations

from collections.abc import Iterator
from dataclasses import dataclass, field
from xml.parsers import expat

MOST_BYTES = 1 << 20
MOST_ELEMENTS = 20_000
DEEPEST = 32  # levels of elements: VAST has 10
LONGEST = 65_536  # characters of an element's text, and of an attribute's value
BLANKS = " \t\r\n"


class NoXml(Exception):
    """A text that isn't taken; it says why, and in which line."""


@dataclass(slots=True)
class Element:
    """An element: its local `name`, its attributes by their local names, the text in it that no child holds, and its children in order."""

    name: str
    attributes: dict[str, str] = field(default_factory=dict)
    parts: list[str] = field(default_factory=list)
    children: list[Element] = field(default_factory=list)

    def text(self) -> str:
        """Its own text without blanks at both ends."""
        return "".join(self.parts).strip(BLANKS)

    def child(self, name: str) -> Element | None:
        """Its first child of this `name`; none if there is none."""
        return next((it for it in self.children if it.name == name), None)

    def each(self, *path: str) -> Iterator[Element]:
        """The elements to which the names of `path` lead, in their order: the children of the first name, of these those of the second .."""
        for it in self.children:
            if it.name == path[0]:
                if len(path) == 1:
                    yield it
                else:
                    yield from it.each(*path[1:])


def local(name: str) -> str:
    """The `name` of an element or an attribute without its namespace."""
    return name.rpartition(" ")[2]


class Builder:
    """What expat has read so far."""

    def __init__(self) -> None:
        self.parser = expat.ParserCreate(namespace_separator=" ")
        self.parser.buffer_text = True
        self.parser.StartDoctypeDeclHandler = self.doctype
        self.parser.EntityDeclHandler = self.doctype
        self.parser.StartElementHandler = self.start
        self.parser.EndElementHandler = self.end
        self.parser.CharacterDataHandler = self.data
        self.root: Element | None = None
        self.open: list[Element] = []
        self.count, self.length = 0, 0

    def refuse(self, text: str) -> NoXml:
        """Why the document isn't taken: `text`, with the line in which that is."""
        return NoXml(f"line {self.parser.CurrentLineNumber}: {text}")

    def doctype(self, *_: object) -> None:
        """A DOCTYPE, or an entity, which aren't taken."""
        raise self.refuse("it has a DOCTYPE, which isn't taken")

    def start(self, name: str, attributes: dict[str, str]) -> None:
        """An element called `name` begins, with its `attributes`."""
        self.count += 1
        if self.count > MOST_ELEMENTS:
            raise self.refuse(f"it has over {MOST_ELEMENTS} elements")
        if len(self.open) >= DEEPEST:
            raise self.refuse(f"its elements are over {DEEPEST} levels deep")
        if attributes:
            if max(map(len, attributes.values())) > LONGEST:
                raise self.refuse(f"an attribute has over {LONGEST} characters")
            attributes = {local(key): value for key, value in attributes.items()}
        it = Element(local(name), attributes)
        if self.open:
            self.open[-1].children.append(it)
        else:
            self.root = it
        self.open.append(it)
        self.length = 0

    def end(self, _name: str) -> None:
        """An element ends."""
        self.open.pop()
        self.length = 0

    def data(self, text: str) -> None:
        """The next part of the open element's text is `text`."""
        self.length += len(text)
        if self.length > LONGEST:
            raise self.refuse(f"a text has over {LONGEST} characters")
        self.open[-1].parts.append(text)


def read(body: bytes) -> Element:
    """The root element of the XML document `body`; raises NoXml if it isn't one, or is over a bound."""
    if len(body) > MOST_BYTES:
        raise NoXml(f"it has {len(body)} bytes, over {MOST_BYTES}")
    builder = Builder()
    try:
        builder.parser.Parse(body, True)
    except expat.ExpatError as fault:
        raise NoXml(f"line {fault.lineno}: it isn't XML: {expat.ErrorString(fault.code)}") from None
    except (LookupError, ValueError) as fault:  # (of an encoding that there isn't)
        raise NoXml(f"it isn't XML: {str(fault)[:100]}") from None
    if builder.root is None:
        raise NoXml("it has no element")
    return builder.root
