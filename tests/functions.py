"""Where the functions of a source file stand, which has the layout of rt fmt, and how a check names them."""
import re
from collections import namedtuple

# head: what follows the word impl if it is a method of one, else ""; of_trait: a trait's own method, or one of an impl
# of a trait; first, last: the numbers of its lines
Function = namedtuple("Function", "name head of_trait first last")

HEAD = re.compile(r"( *)(?:pub(?:\([^)]*\))? )?(?:final |const |unsafe )*fn (\w+)")


def last_line(lines, first, indent, in_trait):
    """The number of a function's last line: its closing bracket, or its last clause if a trait gives it no body."""
    has_body = lines[first].endswith("{")
    for at in range(first, len(lines)):
        line = lines[at]
        has_body = has_body or line == indent + "{"
        is_short = line.endswith("}") and (at == first or line.startswith(indent + "{"))
        if is_short or line == indent + "}" or in_trait and not has_body and line.endswith(";"):
            return at
    return len(lines) - 1


def functions_in(lines):
    """The functions of these lines, but for those within other ones."""
    head, in_trait, last = "", False, -1
    for at, line in enumerate(lines):
        if at <= last:
            continue
        if re.match(r"[^\s}#/]", line):
            found = re.match(r"impl\b(.*)", line)
            head, in_trait = found[1] if found else "", bool(re.match(r"(?:pub )?trait\b", line))
        found = HEAD.match(line)
        if found:
            last = last_line(lines, at, found[1], in_trait)
            is_inner = bool(found[1])
            of_trait = in_trait or " for " in head.partition("{")[0]
            yield Function(found[2], head if is_inner else "", is_inner and of_trait, at, last)


def parts_of(head):
    """What the head of an impl names: its trait, its type, and what that is of."""
    head = re.sub(r"^<[^<>]*(<[^<>]*>[^<>]*)*>", "", head.partition("{")[0].partition(" where ")[0])
    trait, _, type_name = head.rpartition(" for ")
    return trait, *re.match(r"[&\s]*(?:\w+::)*(\w+)(?:<(\w+)>)?", type_name).groups()


def owner_named(head):
    """How a check names what an impl is of: the type, and after it the trait with the types that it is of, as in
    CountedSink or FaultFromAllocError."""
    trait, name, of = parts_of(head)
    if re.match(rf"<(?:[^<>]*\W)?{name}\b", head):  # (an impl of a trait for each type that a parameter stands for)
        name = "Any"
    if re.search(r" for &", head):
        name = "Ref" + name[:1].upper() + name[1:]
    if not trait and of and len(of) > 1:  # (not a parameter: as in Shared+Text)
        return f"{name}+{of}"
    return name + "".join(re.findall(r"(\w+)(?!\w|::)", re.sub(r"<T>", "", trait)))


def place_in(file, lines, number):
    """The function in which a line of a file stands: the file, its name, and its owner; None if it stands in none."""
    found = next((it for it in functions_in(lines) if it.first <= number <= it.last), None)
    return found and (file, found.name, owner_named(found.head) if found.head else "")


def modules_of(file):
    return [it for it in re.sub(r"^src/|\.rt$", "", file).split("/") if it not in ("lib", "main")]


def path_of(place):
    """The path below its crate of the function at a place, or the end of it: a free function stands below its module, a
    method below its type."""
    file, name, owner = place
    return "::".join([owner, name] if owner else [*modules_of(file), name])


def proofs_of(place):
    """The folder of the proof files of the function at a place."""
    file, name, owner = place
    return "/".join(filter(None, ["proofs", *modules_of(file), owner, name])) + "/"
