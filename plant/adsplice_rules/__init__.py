"""The rules as plain Python: what adsplice owes for each input. `run` beside this file runs it; docs/TESTING.md tells more.
It imports nothing of the programs beside it.

It is written from RFC 8216, ANSI/SCTE 35, RFC 9110 and 9112, docs/CONFORMANCE.md and the definitions in crates/*/specs, and
from no code. Lists are whole, rules look back over them, and nothing is kept that could be worked out again. Not in it: want of
memory, time, many connections at once, devices that fail, hosts beyond ASCII and `file:` references (`NotModelled`).
"""
