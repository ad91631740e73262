"""Runs of `adsplice live` in which one connection is refused memory.

Each is a fresh server with the requests of one case. What it answers is compared with what the same program answers that
was refused nothing: if the request was refused, with one that was never asked it; and if it is asked again, now
with memory, with one that was asked it once."""
from collections import namedtuple

from live_requests import CREATED, FULL, reply
from server import Server
from shim import WAYS

UNAVAILABLE = reply(FULL)
# How many allocations of a request that makes a channel can be refused, each alone, and the channel is made all the same:
# the two texts that are put before plain references, without one of which such URIs are resolved another way; and two while the
# client's first bytes are looked at, without one of which it stands in line.
SPARED = 4
OUT_OF_MEMORY = b"E5 OutOfMemory\n"

# What a server answered: to the requests before; to the refused one, if any, with how many calls were refused; and then,
# for each time that the request was asked, its reply with all that could be read after it; and to the requests after.
Told = namedtuple("Told", "before refused reply shown asked after ended")


def read_all(server, case):
    return [server.ask(it) for it in case.reads]


def run(program, control, ports, case, times, refusal=None):
    """A server that is asked the request so many times, after it was refused (first, most) if that is given."""
    count = len(case.before) + (refusal is not None) + times + (times + 2) * len(case.reads) + len(case.after)
    server = Server(program, control, count, ports)
    try:
        return told_by(server, control, case, times, refusal)
    except OSError as e:  # (it ended too early, or doesn't answer)
        server.running.kill()
        return Told([], control.stop(), None, [], [], ([], []), (f"{type(e).__name__}: {e}", *server.end()))


def told_by(server, control, case, times, refusal):
    before = [server.ask(it) for it in case.before]
    refused, answered = 0, None
    if refusal:
        control.refuse(*refusal)
        answered = server.ask(case.asked, case.is_cut)
        refused = control.stop()
    shown = read_all(server, case)
    asked = [(server.ask(case.asked, case.is_cut), read_all(server, case)) for _ in range(times)]
    after = [server.ask(it) for it in case.after], read_all(server, case)
    return Told(before, refused, answered, shown, asked, after, server.end())


class Clean:
    """What is answered if nothing is refused, by how often the request is asked."""

    def __init__(self, program, control, ports, case):
        self.told = [run(program, control, ports, case, times) for times in range(3)]

    def faults(self, case):
        """What isn't as the case has it."""
        found = []
        for times, told in enumerate(self.told):
            if told.ended != (0, b"", case.fault * times):
                found.append(f"asked {times} times with memory: {told.ended}")
        if not found and self.told[1].asked[0][0] != case.owed:
            found.append(f"with memory: {self.told[1].asked[0][0][:160]}, owed {case.owed[:160]}")
        return found

    def shown(self, times):
        """What can be read after the request was asked so many times."""
        told = self.told[times]
        return told.asked[-1][1] if times else told.shown


def outcome(case, told, times):
    """Whether the request was carried out (1) or refused (0) in the connection that was refused memory, by its reply and
    what was printed of it; or None."""
    if told.ended[:2] != (0, b""):
        return None
    err = told.ended[2]
    printed, rest = err[:len(err) - len(case.fault) * times], err[len(err) - len(case.fault) * times:]
    if rest != case.fault * times:
        return None
    if (told.reply, printed) == (case.owed, case.fault):
        return 1
    if told.refused and (told.reply, printed) in ((UNAVAILABLE, b""), (b"", OUT_OF_MEMORY)):
        return 0
    return None


def fault_of(case, clean, told, times):
    """What a run answered that isn't owed, or None."""
    done = outcome(case, told, times)
    if done is None:
        return f"{told.reply[:160]}, {told.ended}"
    if told.before != clean.told[0].before:
        return "the requests before it are answered otherwise"
    if told.shown != clean.shown(done):
        return f"answered {told.reply[:40]}, and then {told.shown} is read, owed {clean.shown(done)}"
    if times and told.asked[0] != clean.told[done + 1].asked[done]:
        return f"asked again: {told.asked[0]}, owed {clean.told[done + 1].asked[done]}"
    if told.after != clean.told[done + times].after:
        return f"the requests after it are answered {told.after}, owed {clean.told[done + times].after}"
    return None


def differences(program, control, ports, case, way):
    """How often the connection was refused memory before it was refused none, and what was answered that isn't owed."""
    clean = Clean(program, control, ports, case)
    found = clean.faults(case)
    first, refused, spared = 0, not found, 0
    while refused:
        first += 1
        for times in (0, 1):
            told = run(program, control, ports, case, times, (first, WAYS[way]))
            refused = told.refused
            spared += bool(refused and not times and outcome(case, told, times))
            fault = fault_of(case, clean, told, times)
            if fault:
                found.append(f"allocation {first}{', and again' * times}: {fault}")
    if case.owed == reply(CREATED) and way == "it alone" and spared != SPARED:
        found.append(f"made although one of {spared} allocations was refused, owed {SPARED}")
    return max(0, first - 1), found
