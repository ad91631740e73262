"""The recordings of packagers' lists in `recordings`: for each state of a list a line with the second at which it was there, and
how it differs from the one before: from the last place on, so many lines go and these come."""
import json
import os

FOLDER = os.path.join(os.path.dirname(os.path.abspath(__file__)), "recordings")


def names():
    """The names of the recordings."""
    return sorted(it.removesuffix(".jsonl") for it in os.listdir(FOLDER))


def states(name):
    """Each state of the recording `name`: the second, and the list's bytes."""
    lines = []
    with open(f"{FOLDER}/{name}.jsonl", encoding="utf-8") as it:
        for line in it:
            at, changes = json.loads(line)
            for place, count, new in reversed(changes):
                lines[place:place + count] = new
            yield at, "\n".join(lines).encode()
