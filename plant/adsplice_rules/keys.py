"""Keys and initialisation sections (RFC 8216, 4.3.2.4, 4.3.2.5 and 5.2)."""
from __future__ import annotations

from dataclasses import replace

from .attributes import Attribute, attributes_of, byte_range_of, hexadecimal_of, named, required, value_as
from .uris import Url, resolved
from .values import InitSection, Key, Keys, Range, or_fault

OWN = ("METHOD", "URI", "IV", "KEYFORMAT")
MOST_FORMATS = 16  # a limit of the reader (CONFORMANCE, 4.3.2.4)


def key_iv(found: list[Attribute]) -> int | None:
    """4.3.2.4: the IV, if one is stated: a hexadecimal-sequence without quotes; P11 else."""
    one = named(found, "IV")
    return None if one is None else or_fault(hexadecimal_of(value_as(False, one)), "P11")


def key_of(base: Url, rest: str) -> Key | None:
    """4.3.2.4: what an EXT-X-KEY says. METHOD=NONE is none, whatever else stands there (CONFORMANCE). All attributes that
    aren't judged are carried in their order."""
    found = attributes_of(rest)
    method = required(found, "METHOD", quoted=False)
    if method == "NONE":
        return None
    reference = required(found, "URI", quoted=True)
    iv = key_iv(found)
    format_said = named(found, "KEYFORMAT")
    name = value_as(True, format_said) if format_said else "identity"
    return Key(name, method, resolved(base, reference), iv, "".join(f",{one.text()}" for one in found if one.name not in OWN))


def keys_after(tags: list[Key | None]) -> Keys:
    """4.3.2.4: the keys in force after these tags: the last one of each format since METHOD=NONE, which ends them all
    (CONFORMANCE), in the order of the formats' bytes."""
    in_force: dict[str, Key] = {}
    for key in tags:
        if key is None:
            in_force = {}
        else:
            in_force[key.format] = key
    return tuple(in_force[name] for name in sorted(in_force, key=str.encode))


def map_of(base: Url, rest: str) -> tuple[str, Range | None]:
    """4.3.2.5: the resource that an EXT-X-MAP names, and its bytes, which begin at 0 if no offset is stated (CONFORMANCE)."""
    found = attributes_of(rest)
    reference = required(found, "URI", quoted=True)
    said = named(found, "BYTERANGE")
    part = byte_range_of(value_as(True, said)) if said else None
    return resolved(base, reference), part and (part[0], part[1] or 0)


def lacks_iv(keys: Keys) -> bool:
    """4.3.2.5: an AES-128 key over an EXT-X-MAP has to state its IV, of whatever format it is (CONFORMANCE)."""
    return any(key.method == "AES-128" and key.iv is None for key in keys)


def effective_keys(keys: Keys, number: int) -> Keys:
    """5.2: a key of the format identity without IV has the Media Sequence Number as its IV, whatever its METHOD."""
    return tuple(replace(key, iv=number) if key.format == "identity" and key.iv is None else key for key in keys)


def key_text(key: Key) -> str:
    """4.3.2.4: the attributes of a key tag as they are written; the format identity goes without saying."""
    iv = "" if key.iv is None else f",IV=0x{key.iv:032X}"
    name = "" if key.format == "identity" else f',KEYFORMAT="{key.format}"'
    return f'METHOD={key.method},URI="{key.uri}"{iv}{name}{key.other}'


def transition(old: Keys, new: Keys) -> list[str]:
    """4.3.2.4: the tags that lead from old keys to new ones: the new or changed keys; but if a format ends, METHOD=NONE and
    then every key."""
    ends = {key.format for key in old} - {key.format for key in new}
    tags = ["METHOD=NONE"] if ends else []
    return [f"#EXT-X-KEY:{text}" for text in tags + [key_text(key) for key in new if ends or key not in old]]


def init_section_text(init_section: InitSection) -> str:
    """4.3.2.5: the EXT-X-MAP of an initialisation section."""
    part = f',BYTERANGE="{init_section.range[0]}@{init_section.range[1]}"' if init_section.range else ""
    return f'#EXT-X-MAP:URI="{init_section.uri}"{part}'
