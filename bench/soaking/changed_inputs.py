"""A run over changed inputs: which process each goes to, what is checked of it, and what is told of all."""
import heapq
import re
import statistics
import time
from array import array

from answers import FILE_FAULTS, PLACE, complaint
from inputs import CHANNEL_LINE, input_of
from programs import Died, Lines, built
from seeds import Seeds

MOST = 1_000_000  # inputs
USUAL_SECONDS = 1800
USUAL_SEED = 20260
PARTS = 10  # of a run, for what memory is held
# A process to which channels are added is ended after so many inputs, since the program keeps all that it made.
LIVES = {"channels": 500, "large": 1}
# These live for the whole run, and keep one channel, or none that isn't asked for.
STEADY = ("edge", "one_channel", "sections")
GROWTH = 1 << 20  # bytes by which the last tenth's resident memory may be above the first one's
LINE = 400  # bytes: what a line costs beside its own bytes and those of its answer
SLOWEST = 50  # times the median cost of a byte, at most
# Large inputs are held against the median of small ones of their kind, so that a time that isn't linear is seen.
SMALL = {"large": "playlist", "large on an edge": "pushed"}
TRIES = 5  # of an input that was slow; the least counts
KEPT = 20  # of the slowest inputs of each kind
SAMPLE = 100  # of one decision file of so many it is asked too what it says
SHOWN = 20  # complaints that are printed
FILE_FAULT = re.compile(f"({FILE_FAULTS}){PLACE}\n".encode())
FILE_SAID = re.compile(rb"decisions\n(break .* ads \d+ segments \d+ total \d+\n)*|withdraw .*\n")


class Programs:
    """The processes that inputs are given to, each started when it is wanted."""

    def __init__(self, folder):
        self.path = built("test_driver", folder)
        self.running, self.started = {}, 0
        self.shown = None  # by the one channel

    def process(self, program):
        if program not in self.running:
            self.running[program] = Lines(self.path)
            self.started += 1
            if program == "one_channel":
                self.shown = self.running[program].ask([CHANNEL_LINE, b"playlist"])[1]
        return self.running[program]

    def ask(self, input):
        """The answers to an input, what is wrong with them, and what they cost for a byte, in nanoseconds."""
        try:
            process = self.process(input.program)
            answers = process.ask(input.asked)
        except Died as e:
            self.running.pop(input.program, None)
            return None, f"the process died: {e}", 0
        is_kept = input.kind == "one channel"
        found = complaint(input, answers, self.shown if is_kept else None)
        if is_kept:
            self.shown = answers[1]
        size = sum(map(len, input.asked)) + sum(map(len, answers)) + LINE * len(input.asked)
        cost = process.took / size
        if process.asked >= LIVES.get(input.program, 2 * MOST):
            found = self.end(input.program) or found
        return answers, found, cost

    def end(self, program):
        """Ends a process, and tells what was wrong with its end."""
        told = self.running.pop(program).end()
        return f"{program} ended badly: {told}" if told else None

    def end_all(self):
        return [told for told in map(self.end, list(self.running)) if told]

    def file_complaint(self, input, answers):
        """What the same decision file says: it has the same fault, or its breaks are told."""
        said, = self.process(input.program).ask([b"decisions" + input.asked[1].removeprefix(b"decide")])
        owed = answers[1]
        is_right = said == owed if FILE_FAULT.fullmatch(owed) else FILE_SAID.fullmatch(said)
        return None if is_right else f"the file says {said[:100]!r}, and the channel {owed[:100]!r}"


class Seen:
    """What was seen of the answers."""

    def __init__(self):
        self.costs, self.slowest = {}, {}  # by kind
        self.named, self.memory = {}, {}
        self.complaints, self.files = [], 0

    def complain(self, number, what):
        self.complaints.append((number, what))
        if len(self.complaints) <= SHOWN:
            print(f"input {number}: {what}", flush=True)

    def note(self, number, input, answers, cost):
        self.costs.setdefault(input.kind, array("d")).append(cost)
        slowest = self.slowest.setdefault(input.kind, [])
        (heapq.heappush if len(slowest) < KEPT else heapq.heappushpop)(slowest, (cost, number))
        name = re.match(rb"[PNJSE]\d+ \w+|\w+|", answers[input.at])[0].decode()
        name = name if input.kind != "section" or name[0] == "S" else "ok"
        self.named[input.kind, name] = self.named.get((input.kind, name), 0) + 1

    def sample(self, part, programs):
        """Notes the resident memory of the processes that live for the whole run."""
        for program in STEADY:
            if program in programs.running:
                self.memory.setdefault(program, {}).setdefault(part, []).append(programs.running[program].memory())


def give_all(seed, seconds, programs, seen):
    """Gives the inputs until there are enough of them, or the time is over; answers how many there were."""
    seeds, begun = Seeds(), time.monotonic()
    for number in range(MOST):
        passed = time.monotonic() - begun
        if passed > seconds:
            return number
        if number % (MOST // PARTS) == 0 and number:
            print(f"{number} inputs, {passed:.0f} s", flush=True)
        if number % 200 == 199:
            seen.sample(int(PARTS * max(number / MOST, passed / seconds)), programs)
        input = input_of(seed, number, seeds)
        answers, found, cost = programs.ask(input)
        if found:
            seen.complain(number, found)
        if answers is None:
            continue
        seen.note(number, input, answers, cost)
        if input.kind == "decisions" and len(seen.costs["decisions"]) % SAMPLE == 0:
            seen.files += 1
            found = programs.file_complaint(input, answers)
            if found:
                seen.complain(number, found)
    return MOST


# ---- what is asked of a whole run

def least_cost(seed, number, programs, seeds):
    """What an input costs for a byte, at the least of several times."""
    return min(programs.ask(input_of(seed, number, seeds))[2] for _ in range(TRIES))


def time_checks(seed, programs, seen):
    """The slowest inputs of each kind, asked again, beside the median."""
    seeds = Seeds()
    medians = {kind: statistics.median(costs) for kind, costs in seen.costs.items()}
    for kind, slowest in seen.slowest.items():
        again = max((min(cost, least_cost(seed, number, programs, seeds)), number) for cost, number in slowest)
        print(f"{kind}: {len(seen.costs[kind])} inputs, {medians[kind]:.1f} ns a byte at the median; the slowest, input "
              f"{again[1]}, {again[0]:.1f} ({max(slowest)[0]:.1f} at first)")
        median = medians.get(SMALL.get(kind, kind), medians[kind])
        yield f"{kind}: the slowest takes at most {SLOWEST} times the median", again[0] <= SLOWEST * median


def memory_checks(seen):
    for program, parts in seen.memory.items():
        if len(parts) < 2:
            continue
        first, last = (statistics.median(parts[part]) for part in (min(parts), max(parts)))
        print(f"{program}: resident memory {first / 1024:.0f} KiB in the first tenth, {last / 1024:.0f} KiB in the last, "
              f"{max(map(max, parts.values())) / 1024:.0f} KiB at most")
        yield f"{program}: no memory is kept", last <= first + GROWTH


def print_names(seen):
    by_kind = {}
    for (kind, name), count in seen.named.items():
        by_kind.setdefault(kind, []).append((count, name))
    for kind, names in by_kind.items():
        print(f"{kind}: " + ", ".join(f"{name} {count}" for count, name in sorted(names, reverse=True)))


def main(folder, seconds=None, seed=USUAL_SEED):
    programs, seen = Programs(folder), Seen()
    print(f"seed {seed}", flush=True)
    begun = time.monotonic()
    count = give_all(seed, USUAL_SECONDS if seconds is None else seconds, programs, seen)
    print(f"{count} inputs in {time.monotonic() - begun:.0f} s, {programs.started} processes, "
          f"{seen.files} files asked what they say")
    print_names(seen)
    checks = [*memory_checks(seen), *time_checks(seed, programs, seen)]
    for told in programs.end_all():
        seen.complain(count, told)
    if seconds is None:
        checks.append((f"{MOST} inputs were given", count == MOST))
    failed = [name for name, is_well in checks if not is_well]
    for name in failed:
        print(f"not so: {name}")
    wrong = len({number for number, _ in seen.complaints})
    print(f"soak: {count - wrong + len(checks) - len(failed)} passed, {wrong + len(failed)} failed")
    return 1 if wrong or failed or not count else 0


def only(folder, number, seed):
    """One input alone, of a fresh process."""
    input = input_of(seed, number, Seeds())
    programs = Programs(folder)
    answers, found, cost = programs.ask(input)
    for place, line in enumerate(input.asked):
        print(("> " if place == input.at else "  ") + line.decode("utf-8", "replace"))
        if answers:
            print(answers[place].decode("utf-8", "replace"), end="")
    print(f"input {number} of seed {seed}, {input.kind}: {cost:.1f} ns a byte; {found or 'nothing is wrong with it'}")
    found = found or next(iter(programs.end_all()), None)
    print(f"soak: {0 if found else 1} passed, {1 if found else 0} failed")
    return 1 if found else 0
