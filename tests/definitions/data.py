"""The types of data that definitions speak of: the constructors of each, and the fields of each record."""
from __future__ import annotations

import glob
import re
from collections import defaultdict
from typing import NamedTuple

NUMBERS = {"u8", "u16", "u32", "u64", "u128", "usize", "Nanos", "ℕ"}
TEXTS = {"Text", "ShortText", "OtherAttributes", "String", "Name", "List ℕ", "Vec<u8>"}
ENUM = re.compile(r"^(?:pub(?:\(crate\))? )?enum (\w+)[^{;]*\{\n(.*?)^\}", re.MULTILINE | re.DOTALL)
STRUCT = re.compile(r"^(?:pub(?:\(crate\))? )?struct (\w+)[^{;]*\{\n(.*?)^\}", re.MULTILINE | re.DOTALL)


class Types(NamedTuple):
    """Constructors of a crate by their names, as groups of the same type and parts; and records as fields with types."""

    groups: dict[tuple[str, str], list[str]]
    records: list[dict[str, str]]


def plain(said: str) -> str:
    """A type in words that Rust's and the definitions' have in common."""
    said = " ".join(said.split())
    while found := re.fullmatch(r"(?:Shared|Rc|Box)<(.*)>", said):
        said = found[1]
    if said in NUMBERS:
        return "ℕ"
    if said in TEXTS:
        return "List ℕ"
    if said == "Instant":
        return "ℤ"
    if found := re.fullmatch(r"Option<(.*)>", said):
        return f"Option ({plain(found[1])})"
    if found := re.fullmatch(r"(?:Vec|Box)<(?:\[)?(.*?)\]?(?:, \w+)?>", said):
        return f"List ({plain(found[1])})"
    if found := re.fullmatch(r"(Option|List) \(?(.*?)\)?", said):
        return f"{found[1]} ({plain(found[2])})" if f"{found[1]} ({found[2]})" != "List (ℕ)" else "List ℕ"
    return {"bool": "Bool"}.get(said, said)


def rust_types(crate: str, folder: str, types: Types) -> None:
    for file in glob.glob(f"{folder}/src/*.rt"):
        with open(file, encoding="utf-8") as it:
            text = re.sub(r"(?m)^ *//.*\n|^ *#\[.*\n", "", it.read())
        for name, body in ENUM.findall(text):
            made = re.findall(r"(?m)^    (\w+)(?:\(([^)]*)\)| \{([^}]*)\})?,?$", body)
            parts: dict[str, list[str]] = defaultdict(list)
            for one, round_parts, named_parts in made:
                parts[plain(round_parts or named_parts)].append(one)
            for those in parts.values():
                types.groups.update({(crate, one): those for one in those})
        for name, body in STRUCT.findall(text):
            types.records.append({one: plain(said) for one, said in re.findall(r"(?m)^    (?:pub(?:\(crate\))? )?(\w+): (.*),$", body)})


def spec_types(crate: str, folder: str, types: Types) -> None:
    for file in glob.glob(f"{folder}/specs/**/*.antt", recursive=True):
        with open(file, encoding="utf-8") as it:
            text = it.read()
        for body in re.findall(r"(?m)^(?:pub )?data [^\n]*where\n((?:  .*\n)+)", text):
            parts = defaultdict(list)
            for one, said in re.findall(r"(?m)^  (\w+) : (.*)$", body):
                parts[plain(said.rpartition("→")[0])].append(one)
            for those in parts.values():
                types.groups.update({(crate, one): those for one in those})
        for body in re.findall(r"(?m)^(?:pub )?record [^\n]*where\n((?:  .*\n)+)", text):
            types.records.append({one: plain(said) for one, said in re.findall(r"(?m)^  pub (\w+) : (.*)$", body)})


def types_of(root: str, crates: list[str]) -> Types:
    types = Types({}, [])
    for crate in crates:
        rust_types(crate, f"{root}/crates/{crate}", types)
        spec_types(crate, f"{root}/crates/{crate}", types)
    types.groups.update({("", one): ["true", "false"] for one in ("true", "false")})
    return types
