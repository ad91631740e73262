"""The stored vectors (tests/vectors), and whether the model owes the same for each."""
from __future__ import annotations

import base64
import json
from pathlib import Path
from typing import Any

from adsplice_rules.splice import Insert, crc_of, section_of
from adsplice_rules.values import NotModelled

from .cases import Connections, Run, json_line, owed_connections, owed_run

VECTORS = Path(__file__).resolve().parent.parent / "vectors"
SECTIONS = VECTORS.parent / "sections" / "sections.jsonl"


def vectors(files: list[Path]) -> list[dict[str, Any]]:
    """The vectors of these files, but those of the usage, which is no rule's."""
    found = [json.loads(line) for file in files for line in file.read_text(encoding="utf-8").splitlines()]
    return [vector for vector in found if "connections" in vector or vector["args"][:1] == ["vod"]]


def all_files() -> list[Path]:
    """The files of stored vectors."""
    return sorted(VECTORS.glob("*.jsonl"))


def owed_by_model(vector: dict[str, Any]) -> Run | Connections:
    """What the model owes for the inputs of a vector."""
    if "connections" in vector:
        return owed_connections(vector["name"], [base64.b64decode(one["request"]) for one in vector["connections"]])
    decisions = vector.get("decisions")
    return owed_run(vector["name"], vector["args"][1], base64.b64decode(vector["stdin"]),
                    None if decisions is None else base64.b64decode(decisions))


def agrees(vector: dict[str, Any]) -> bool:
    """Whether a vector owes what the model does, if the model says anything of it."""
    try:
        case = owed_by_model(vector)
    except NotModelled:
        return True
    if isinstance(case, Connections):
        replies = [None if one["reply"] is None else base64.b64decode(one["reply"]) for one in vector["connections"]]
        return replies == [reply for _, reply in case.asked]
    fault = f"{case.fault}\n" if case.fault else ""
    return (case.text.encode(), fault) == (base64.b64decode(vector["stdout"]), vector["stderr"])


def sections() -> list[dict[str, Any]]:
    """Splice sections, each with its fields as two other readers of SCTE 35 tell them."""
    return [json.loads(line) for line in SECTIONS.read_text(encoding="utf-8").splitlines()]


def reads(section: dict[str, Any]) -> bool:
    """Whether the model reads of a section what the other readers tell of a break, and finds its CRC_32 right."""
    fields, given = section["fields"], bytes.fromhex(section["hex"])
    found = section_of(given).insert
    out = None if fields["cancel"] else fields["out"] == 1
    owed = Insert(out, fields.get("ticks"), fields["event"], fields.get("immediate") == 1, fields.get("avail", 0), fields.get("avails", 0))
    return crc_of(given) == 0 and found == owed


def lines_again(files: list[Path]) -> list[str]:
    """The lines of these files with what the model owes for their inputs; those that it says nothing of stay."""
    lines = []
    for line in (line for file in files for line in file.read_text(encoding="utf-8").splitlines()):
        vector = json.loads(line)
        is_run = "connections" in vector or vector["args"][:1] == ["vod"]
        lines.append(line if not is_run or agrees(vector) else json_line(owed_by_model(vector)))
    return lines


def first_disagreement() -> str | None:
    """The name of the first stored vector that the model doesn't agree with, or by which it comes to an end."""
    for vector in vectors(all_files()):
        try:
            is_right = agrees(vector)
        except Exception:  # a model with a fault in it may end in any way
            is_right = False
        if not is_right:
            return str(vector["name"])
    return None
