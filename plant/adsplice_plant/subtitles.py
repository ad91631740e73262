"""Pods of subtitles: an ad has no words, so each piece of it is an empty one (RFC 8216, 3.5: a WebVTT segment without cues is a header alone).

They are made of another rendition's decision file, so that discontinuities and lengths are those of the pictures.
"""
from __future__ import annotations

import json
from decimal import ROUND_CEILING, ROUND_HALF_UP, Decimal, DecimalException
from typing import Any

MOST_PIECES = 10_000  # of an ad that is cut anew


def without_words(body: bytes, uri: str, target: int) -> bytes:
    """The decision file for subtitles that belongs to the decision file `body` of another rendition: each segment is the empty piece at the `uri`. An ad
    with a segment that is longer than the `target` duration, in seconds, is cut into pieces of equal length. A `body` that doesn't
    read stays as it is: adsplice says what is wrong with it."""
    try:
        said = json.loads(body)
        pods = [*(said.get("breaks") or ()), *([said["fallback"]] if said.get("fallback") else [])]
        for pod in pods:
            pod["ads"] = [ad_of(it, uri, target) for it in pod["ads"]]
    except (ValueError, TypeError, KeyError, AttributeError, RecursionError, DecimalException):
        return body
    return json.dumps(said).encode()


def ad_of(ad: dict[str, Any], uri: str, target: int) -> dict[str, Any]:
    """The `ad` without words; its other members stay."""
    lengths = [Decimal(str(it["duration"])) for it in ad["segments"]]
    if any(it.quantize(Decimal(1), ROUND_HALF_UP) > target for it in lengths):
        lengths = cut(sum(lengths, Decimal(0)), target)
    return {**ad, "segments": [{"uri": uri, "duration": format(it.normalize(), "f")} for it in lengths]}


def cut(whole: Decimal, target: int) -> list[Decimal]:
    """Pieces of at most the `target` duration, of equal length to a millisecond, which last as long as the `whole`, in seconds."""
    count = min(MOST_PIECES, int((whole / target).to_integral_value(ROUND_CEILING)))
    each = (whole / count).quantize(Decimal("0.001"))
    return [each] * (count - 1) + [whole - each * (count - 1)]
