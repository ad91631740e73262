"""Runs of the test driver to which memory is refused while a channel takes a refresh or a decision file.

The program reads an event from each line, and prints its answer. It needs memory to read the line, before the channel's
call, and to print a refused refresh, after it; a line for which it gets none ends it. So one allocation is refused, or
two in a row (growth asks a second time if it was refused), and a run in which the program ended isn't counted: that
an allocation was the call's is told by the answer."""
import os
import subprocess
from collections import namedtuple

from live_requests import AB, FALLBACK, FOUR, NO_FALLBACK, OTHER_FALLBACK, RANGES, X, Y
from playlists import decisions, origin_text
from events import TOLERANCE, escaped

BASE = "http://origin.example/ch/index.m3u8"
SECONDS = 60
WAYS = {"it alone": 1, "it and the next": 2}  # how many calls are refused
READS = ["playlist", "known", "why b1", "why b2", "why q"]
MARK = "mark"  # an event that there isn't, by whose answer those before it are known to be given
MARKED = b"no event\n"

# A line (`asked`) after others (`before`), with its answer and those that may stand for out of memory; `after`: lines
# whose answers tell what can't be seen at once.
Event = namedtuple("Event", "name before asked owed wants after")

NEW = f"channel {TOLERANCE} {BASE}"


def refresh(first, last):
    return f"refresh {escaped(origin_text(first, last, ranges=RANGES))}"


def decide(body):
    return f"decide {escaped(body)}"


def later(first):
    return [refresh(first, 5), decide(Y), refresh(first, 6), "playlist", "known", "withdraw b1", "withdraw b2", refresh(6, 7),
            "playlist", "known", "withdraw b1", "withdraw b2"]


DECIDED = [NEW, decide(AB)]
SHOWN = [*DECIDED, refresh(0, 2)]
PASSED = [*SHOWN, refresh(1, 3)]
OPENED = [NEW, decide(FOUR), refresh(0, 1)]
LEFT = [*OPENED, refresh(1, 3), refresh(4, 5)]


def refreshes():
    for name, before, asked, owed, after in (
            ("a first refresh", DECIDED, refresh(0, 2), b"ok 0 3 3\n", later(0)),
            ("a refresh of a filled break", SHOWN, refresh(1, 3), b"ok 1 2 1\n", later(1)),
            ("a third refresh, past a filled break", PASSED, refresh(4, 5), b"ok 3 2 2\n", later(4)),
            ("a refresh that enters a second break", [*PASSED, decide(Y)], refresh(3, 6), b"ok 1 5 3\n", later(3)),
            ("a refresh that opens a run", [*OPENED[:-1], refresh(0, 0)], refresh(0, 1), b"ok 0 2 1\n", later(0)),
            ("a refresh within an open run", OPENED, refresh(0, 2), b"ok 0 3 1\n", later(0)),
            ("a refresh that leaves the rest of a pod", LEFT[:-1], LEFT[-1], b"ok 4 3 2\n", later(4)),
            ("a refresh that keeps the rest of a pod", LEFT, refresh(4, 6), b"ok 4 4 1\n", later(4)),
            ("a first refresh with the fallback", [NEW, decide(FALLBACK)], refresh(0, 2), b"ok 0 2 3\n", [decide(NO_FALLBACK), *later(0)]),
            ("a refresh that goes back", PASSED, refresh(0, 3), b"N5 Back\n", later(1))):
        yield Event(name, before, asked, owed, (b"N11 OutOfMemory\n",), after)


def decision_files():
    three = decisions(("b1", ["x0"]), ("b2", ["y0", "a0"]), ("b3", ["a1"]))
    for name, before, body, owed in (
            ("a first decision", [NEW], AB, b"ok\n"), ("a decision that replaces", DECIDED, X, b"ok\n"),
            ("decisions that replace and add", DECIDED, three, b"ok\n"), ("a decision on a used break", SHOWN, X, b"J9 Used\n"),
            ("a fallback", [NEW], FALLBACK, b"ok\n"), ("a fallback in place of another", [NEW, decide(FALLBACK)], OTHER_FALLBACK, b"ok\n"),
            ("a withdrawal by a file", DECIDED, '{"withdraw":"b1"}', b"ok\n")):
        yield Event(name, before, decide(body), owed, (b"J8 OutOfMemory\n",), later(0))


def events():
    return [*refreshes(), *decision_files()]


def lines_after(event, times):
    """What is asked after the request, and so many times the request again."""
    return [*READS, *[event.asked, *READS] * times, *event.after, *READS]


class Lines:
    """The program, fed line by line."""

    def __init__(self, program, control):
        self.running = subprocess.Popen([program], stdin=subprocess.PIPE, stdout=subprocess.PIPE, stderr=subprocess.PIPE,
                                        env=os.environ | control.environment)

    def give(self, lines):
        self.running.stdin.write("".join(line + "\n" for line in lines).encode())
        self.running.stdin.flush()

    def pass_over(self, lines):
        """Gives lines, and waits until they are answered."""
        self.give([*lines, MARK])
        while self.running.stdout.readline() not in (MARKED, b""):
            pass

    def end(self, lines):
        """What is answered to the last lines, with the status and what was printed."""
        out, err = self.running.communicate("".join(line + "\n" for line in lines).encode(), timeout=SECONDS)
        return out, self.running.returncode, err


def told_with_memory(program, control, event, asked, times):
    """What is told if the line was given so many times, and then is given again so many times."""
    it = Lines(program, control)
    it.pass_over([*event.before, *[event.asked] * asked])
    return it.end(lines_after(event, times))


def told_refused(program, control, event, times, refusal):
    """The answer of a line that is refused memory, how many calls were refused, and what is told then."""
    it = Lines(program, control)
    it.pass_over(event.before)
    control.refuse(*refusal)
    it.give([event.asked])
    answer = it.running.stdout.readline()
    refused = control.stop()
    return answer, refused, it.end(lines_after(event, times) if answer else [])


def fault_of(event, clean, answer, refused, told, times):
    """What was answered that isn't owed, or None."""
    if not answer and refused:
        return None if told[1] == 1 else f"it ended: {told}"
    done = answer == event.owed
    if not done and not (refused and answer in event.wants):
        return f"answered {answer}"
    owed = clean[done, times]
    return None if told == owed else f"answered {answer}, and then {told}, owed {owed}"


def differences(program, control, event, way):
    """How many calls answered out of memory before one was refused none, and what was answered that isn't owed."""
    clean = {(asked, times): told_with_memory(program, control, event, asked, times) for asked in (0, 1) for times in (0, 1)}
    found, first, refused, count = [], 0, 1, 0
    while refused:
        first += 1
        for times in (0, 1):
            answer, refused, told = told_refused(program, control, event, times, (first, WAYS[way]))
            fault = fault_of(event, clean, answer, refused, told, times)
            if fault:
                found.append(f"allocation {first}{', and again' * times}: {fault}")
        count += answer in event.wants
    return count, found
