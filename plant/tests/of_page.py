"""A test of the page of the first channel (examples/live/watch.js): what it says of breaks, by Node.js if that is installed."""
import json
import shutil
import subprocess

from tools import PLANT

NEEDS = ()
# When, in seconds; the words of `why` in two renditions; and the rows that are owed, the newest first: ID, word and look.
STEPS = [
    (0, {"b1": "Waiting"}, {"b1": "Waiting"}, [["b1", "Waiting", "Waiting"]]),
    (1, {"b1": "Filled"}, {"b1": "Waiting"}, [["b1", "Waiting", "Waiting"]]),  # (the second one was asked a moment before)
    (2, {"b1": "Filled"}, {"b1": "Filled"}, [["b1", "Filled", "Filled"]]),
    (20, {"b1": "Waiting"}, {"b1": "Filled"}, [["b1", "Filled", "Filled"]]),  # (its pod has left the list)
    (21, {"b1": "Waiting"}, {}, [["b1", "Filled", "Filled"]]),
    (22, {}, {}, [["b1", "Filled (gone)", "Filled"]]),
    (30, {"b2": "Filled"}, {"b2": "NotDecided"}, [["b2", "Filled", ""], ["b1", "Filled (gone)", "Filled"]]),
    (36, {"b2": "Filled"}, {"b2": "NotDecided"}, [["b2", "a Filled, b NotDecided", "mixed"], ["b1", "Filled (gone)", "Filled"]]),
]


def test_page_shows_no_healthy_break_in_red(room):
    if not shutil.which("node"):
        return
    words = ["node", f"{PLANT}/tests/page.js", f"{PLANT}/../examples/live/watch.js", json.dumps([it[:3] for it in STEPS])]
    done = subprocess.run(words, capture_output=True, text=True, check=False)
    assert done.returncode == 0, done.stderr
    assert json.loads(done.stdout) == [it[3] for it in STEPS], done.stdout
