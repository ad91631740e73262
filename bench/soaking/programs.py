"""The test driver, which inputs are given to: lines in, answers out, with the processor time and the memory that they take."""
import os
import re
import select
import subprocess
import time
from pathlib import Path

TOP = Path(__file__).resolve().parent.parent.parent
MARK = b"no event\n"  # what a line that is no event is answered; no answer has such a line
MARKS = re.compile(rb"^no event\n", re.MULTILINE)
SECONDS = 120  # for one input, and for the end of a process


class Died(Exception):
    """The process ended, or was silent for too long."""


def built(name, folder):
    """The path of a program: of this folder, or built by `rt run` in its crate."""
    if folder:
        return str(Path(folder).resolve() / name)
    crate = TOP / "crates" / name
    made = crate / "out" / name
    subprocess.run(["rt", "run"], cwd=crate, stdin=subprocess.DEVNULL, capture_output=True, check=False)
    if not made.exists():
        raise SystemExit(f"bench/soak: {name} could not be built")
    return str(made)


class Lines:
    """A process that answers lines. An answer has any number of lines, up to that of a mark."""

    def __init__(self, program):
        self.running = subprocess.Popen([program], stdin=subprocess.PIPE, stdout=subprocess.PIPE, stderr=subprocess.PIPE)
        self.into, self.out = self.running.stdin.fileno(), self.running.stdout.fileno()
        os.set_blocking(self.into, False)
        self.clock = ~self.running.pid << 3 | 2  # (the clock of its processor time)
        self.took, self.asked = 0, 0

    def ask(self, lines):
        """The answers to these lines; `took` is the processor time that they took, in nanoseconds."""
        begun = self.time()
        found = self.converse(b"".join(line + b"\nmark\n" for line in lines), len(lines))
        self.took = self.time() - begun
        self.asked += 1
        return found

    def converse(self, text, count):
        """Writes the text while what is answered is read, up to so many answers."""
        found, until = bytearray(), time.monotonic() + SECONDS
        while True:
            if text:
                text = self.written(text)
            ready, _, _ = select.select([self.out], [self.into] if text else [], [], SECONDS)
            if self.out in ready:
                some = os.read(self.out, 1 << 20)
                if not some:
                    raise Died(self.end())
                found += some
                answers = self.answers(found)
                if len(answers) == count:
                    return answers
            if time.monotonic() > until:
                raise Died(f"no answer within {SECONDS} s; {self.end()}")

    def written(self, text):
        """Writes as much of the text as there is room for, and answers the rest."""
        try:
            return text[os.write(self.into, text):]
        except BlockingIOError:
            return text
        except BrokenPipeError:
            raise Died(self.end()) from None

    def answers(self, found):
        """The whole answers of what was read, or none if the last one isn't whole."""
        return [bytes(it) for it in MARKS.split(found)[:-1]] if found.endswith(MARK) else []

    def time(self):
        return time.clock_gettime_ns(self.clock)

    def memory(self):
        """The bytes that it has in memory."""
        with open(f"/proc/{self.running.pid}/statm", encoding="ascii") as it:
            return int(it.read().split()[1]) * os.sysconf("SC_PAGE_SIZE")

    def end(self):
        """Ends its input, and tells how it ended, or nothing if it ended well."""
        self.running.stdin.close()
        try:
            status = self.running.wait(SECONDS)
        except subprocess.TimeoutExpired:
            self.running.kill()
            return f"it doesn't end, {SECONDS} s after its input did (status {self.running.wait()})"
        errors = self.running.stderr.read()
        self.running.stdout.close()
        self.running.stderr.close()
        return "" if status == 0 and not errors else f"status {status}, stderr {errors[-300:]!r}"
