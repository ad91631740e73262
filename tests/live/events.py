"""Lines that the test driver (crates/test_driver) is given, each with what is owed for it."""

BASE = "http://origin.example/ch/index.m3u8"
TOLERANCE = 100_000_000  # nanoseconds


def escaped(body):
    """A body as a part of one line."""
    if isinstance(body, str):
        body = body.encode()
    named = {10: "\\n", 13: "\\r", 92: "\\\\"}
    return "".join(named.get(byte) or (chr(byte) if 32 <= byte < 127 else f"\\x{byte:02x}") for byte in body)


class Case:
    """A list of events: lines, each with the lines that are owed for it."""

    def __init__(self, name):
        self.name, self.events = name, []

    def given(self):
        return "".join(line + "\n" for line, _ in self.events)

    def owed(self):
        return "".join(answer for _, answer in self.events)

    def event(self, line, *answers):
        self.events.append((line, "".join(answer + "\n" for answer in answers)))
        return self

    def channel(self, base=BASE, tolerance=TOLERANCE, owed="ok"):
        return self.event(f"channel {tolerance} {base}", owed)

    def to(self, back):
        return self.event(f"to {back}")

    def decide(self, body, owed="ok"):
        return self.event(f"decide {escaped(body)}", owed)

    def decisions(self, body, *lines):
        return self.event(f"decisions {escaped(body)}", *lines)

    def withdraw(self, break_id, owed="ok"):
        return self.event(f"withdraw {break_id}", owed)

    def refresh(self, body, owed):
        return self.event(f"refresh {escaped(body)}", owed)

    def playlist(self, text):
        if text is None:
            return self.event("playlist", "none")
        text = text.decode() if isinstance(text, bytes) else text
        return self.event("playlist", "playlist", text)

    def known(self, *lines):
        return self.event("known", "known", *lines)

    def why(self, break_id, word):
        return self.event(f"why {break_id}", word)

    def edge(self):
        return self.event("edge")

    def serve(self, read, failing_read, write, failing_write, asked, outcome, written):
        """A connection, by what its devices move at most and which call fails, with what comes of it."""
        return self.event(f"serve {read} {failing_read} {write} {failing_write} {escaped(asked)}", outcome, written)
