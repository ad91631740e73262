"""Decision files of a channel (docs/DECISION_FILES.md): what they say, and their bounds. A file is written under another name (one that begins with
a point, or doesn't end in .json) and renamed, so that it is there as a whole or not at all."""
import json

DAY = 86400
DONE = "done"  # the folder in the folder, for files that are over
ANSWERS = ("Answered", "NoAds", "Late", "Unanswered", "Wrong", "Unkept", "TooMany")  # what may become of a question
LASTING = ("breaks", "fallback")  # the kinds that adsplice holds on to
MAX_BYTES = 4_194_304  # adsplice takes no longer file
MOST_ADS = 262_144  # bytes of a fallback or a slate, which may be written in each break: as many as the longest pod has under URIs of 400 bytes
MOST_COMMAS = 250_000  # of a decision file: one of 4 MiB has 175,000 if each has its URI and its duration, and each costs the judge time
ROOM = 200  # decided breaks that aren't listed yet: adsplice holds 256, and the others are for those that are listed
MOST_OVER = 16  # breaks that left the list and may come back: those before them are withdrawn if they never began
OVER = "over"  # why such a one is withdrawn
NO_FALLBACK = b'{"fallback":null}'  # the decision file that takes the fallback away


def over_bound(body: bytes) -> str:
    """Why the decision file `body` isn't looked at; empty if it is."""
    return f"has more than {MOST_COMMAS:,} commas" if body.count(b",") > MOST_COMMAS else ""


def said_by(body: bytes) -> tuple[str, list[str]]:
    """The kind of the decision file `body`, and the IDs of its breaks; ("", []) if it doesn't say. adsplice judges it."""
    try:
        found = json.loads(body)
    except (ValueError, RecursionError):
        return "", []
    if not isinstance(found, dict):
        return "", []
    kind = next((it for it in ("breaks", "withdraw", "fallback") if it in found), "")
    breaks = found.get("breaks")
    if kind == "breaks" and isinstance(breaks, list):
        return kind, [str(it["id"]) for it in breaks if isinstance(it, dict) and "id" in it]
    return kind, [str(found["withdraw"])] if kind == "withdraw" else []


def withdrawal(name: str) -> bytes:
    """The decision file that takes the pod of the break `name` back."""
    return json.dumps({"withdraw": name}).encode()
