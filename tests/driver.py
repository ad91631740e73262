"""The test driver (crates/test_driver): all that it is given, with what is owed for it; and what it answers.

A case has a name and events, lines with what is owed for each (tests/live/events.py). Its lines go to a fresh driver.
"""
import os
import re
import subprocess
import sys
from concurrent.futures import ThreadPoolExecutor
from pathlib import Path

HERE = Path(__file__).resolve().parent
sys.dont_write_bytecode = True
sys.path[:0] = [str(HERE / "texts"), str(HERE / "live")]

import attribute_lists  # noqa: E402
import durations  # noqa: E402
import section_vectors  # noqa: E402
import splice_sections  # noqa: E402
from cases import CASES  # noqa: E402
from connections import CONNECTIONS  # noqa: E402
from events import Case  # noqa: E402
from long_run import long_run  # noqa: E402
from vector_cases import vector_cases  # noqa: E402
from words import programs_in  # noqa: E402
from worked_cases import worked_cases  # noqa: E402

SECONDS = 120
MARK, MARKED = "mark", re.compile(rb"^no event\n", re.MULTILINE)  # no event: its answer ends the one before it
SHOWN = 3  # differences of a case
LENGTH = 100  # bytes of a line that are shown


# ---- what the driver is given

def case_of(name, lines):
    case = Case(name)
    for asked, answer in lines:
        case.event(asked, answer)
    return case


def texts():
    """What texts and sections say: the tables of tests/texts, worked by hand, and the vectors of sections."""
    return [case_of("durations", durations.LINES), case_of("attribute lists", attribute_lists.LINES),
            case_of("splice sections", splice_sections.LINES), case_of("vectors of sections", section_vectors.LINES)]


def channels():
    """What channels and connections answer: each case of tests/live, rows of tables of worked values, and the vectors of channels."""
    return [*CASES, *worked_cases(), *CONNECTIONS, long_run(), *vector_cases()]


# ---- what it answers

def answers(program, case):
    """The answers to a case's lines, fewer if the driver ended early; and its status and standard error."""
    given = "".join(f"{line}\n{MARK}\n" for line, _ in case.events)
    ran = subprocess.run([program], input=given.encode(), capture_output=True, timeout=SECONDS)
    return MARKED.split(ran.stdout)[:-1], ran.returncode, ran.stderr


def shown(text):
    return repr(text[:LENGTH])[1:] + (" .." if len(text) > LENGTH else "")


def difference(line, answer, owed):
    """The first line in which an answer to this line is another one than the one that is owed."""
    found, wanted = answer.split(b"\n"), owed.split(b"\n")
    place = next((n for n, pair in enumerate(zip(found, wanted)) if pair[0] != pair[1]), min(len(found), len(wanted)) - 1)
    return f"to {shown(line.encode())}, line {place + 1}: {shown(found[place])}, owed {shown(wanted[place])}"


def tried(program, case):
    """How many events of a case are answered as owed, and what differs, a text for each."""
    try:
        found, status, errors = answers(program, case)
    except subprocess.TimeoutExpired:
        return 0, [f"no answer in {SECONDS} seconds"]
    except OSError as e:
        return 0, [f"cannot run {program}: {e.strerror}"]
    pairs = [(line, answer, owed.encode()) for (line, owed), answer in zip(case.events, found)]
    told = [difference(*it) for it in pairs if it[1] != it[2]]
    right = len(pairs) - len(told)
    if (len(found), status, errors) != (len(case.events), 0, b""):
        told.append(f"it ended after {len(found)} of {len(case.events)} events with status {status}: {shown(errors)}")
    return right, told


def run(kind, make_cases, words, usage):
    """Gives the cases that are made to the program that the words name, prints what differs and how many events passed; the exit status."""
    program, = programs_in(words, 1, usage)
    cases, passed, failed = make_cases(), 0, 0
    with ThreadPoolExecutor(os.cpu_count()) as workers:
        for case, (right, told) in zip(cases, workers.map(lambda case: tried(program, case), cases)):
            passed += right
            failed += max(len(case.events) - right, len(told))
            for it in told[:SHOWN]:
                print(f"{case.name}: {it}")
            if len(told) > SHOWN:
                print(f"{case.name}: and {len(told) - SHOWN} more")
    print(f"{kind}: {passed} passed, {failed} failed")
    return 1 if failed or not passed else 0
