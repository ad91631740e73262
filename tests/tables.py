"""The rows of tables of worked values (crates/worked_examples/specs), which tests ask of the program too.

What a row states was worked out by hand, and the prover computes it. So each value is written once. In Python a text is a
tuple of its bytes, a record a dict, and a value of a type of data a tuple of its constructor's name and its parts.
"""
from __future__ import annotations

import sys
from typing import Any, Iterator

from definitions.computing import Machine, Names, Writer
from definitions.edits import ROOT, theorem
from words import kit_folder

EXAMPLES = "worked_examples"
MACHINE = Machine(Names(theorem, ROOT, kit_folder()))


def rows(*tables: str) -> Iterator[tuple[Any, Any]]:
    """Each row's input and its stated value, of tables by their files and names: `Texts.DurationsAreRead`."""
    for table in tables:
        module, name = table.split(".")
        key = (EXAMPLES, module, name)
        left, writer = MACHINE.definition(key).equations[0].body.parts[1][-1], Writer(MACHINE, key[:2])
        while left.kind == "binary":
            row = writer.expression(left.parts[1], frozenset())
            while MACHINE.waiting:
                MACHINE.make(MACHINE.waiting[-1])
            yield eval(row, MACHINE.space)
            left = left.parts[2]


def computed(crate: str, module: str, name: str, *given: Any) -> Any:
    """What a definition gives."""
    MACHINE.make((crate, module, name))
    return MACHINE.space[MACHINE.function((crate, module, name))](*given)


def fault(crate: str, told: Any) -> bytes:
    """How a fault of this crate is printed."""
    return bytes(computed(crate, "FaultTexts", "fault_text", told))
