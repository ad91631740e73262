"""Generators of vectors: playlists, decision files, channels and connections, each by a seed and a number alone."""
import sys
from pathlib import Path

RULES = Path(__file__).resolve().parent.parent.parent / "plant" / "adsplice_rules"  # the model

sys.path.append(str(RULES.parent))  # (at the end, so that a copy with a fault in it is found before it)
