"""Macros in the URLs of ads (IAB VAST 4.2, 6): [NAME] is replaced by its value, percent-encoded."""
from __future__ import annotations

import random
import re
import urllib.parse
from collections.abc import Mapping
from datetime import datetime

UNKNOWN = "-1"  # the value of a macro of the standard that isn't known here
MACRO = re.compile(r"\[([A-Z_]{2,40})\]|%5B([A-Z_]{2,40})%5D", re.I)
# The macros of VAST 4.2 that a request for ads or a tracking URL may have.
KNOWN = frozenset("""ADCATEGORIES ADCOUNT ADPLAYHEAD ADSERVINGID ADTYPE APIFRAMEWORKS APPBUNDLE ASSETURI BLOCKEDADCATEGORIES BREAKMAXADLENGTH
BREAKMAXADS BREAKMAXDURATION BREAKMINADLENGTH BREAKMINDURATION BREAKPOSITION CACHEBUSTING CLICKPOS CLICKTYPE CLIENTUA CONTENTCAT CONTENTID
CONTENTPLAYHEAD CONTENTURI DEVICEIP DEVICEUA DOMAIN ERRORCODE EXTENSIONS GDPRCONSENT GPPSECTIONID GPPSTRING IFA IFATYPE INVENTORYSTATE LATLONG
LIMITADTRACKING MEDIAMIME MEDIAPLAYHEAD OMIDPARTNER PAGEURL PLACEMENTTYPE PLAYBACKMETHODS PLAYERCAPABILITIES PLAYERSIZE PLAYERSTATE PODSEQUENCE
REASON REGULATIONS SERVERSIDE SERVERUA STOREID STOREURL TIMESTAMP TRANSACTIONID UNIVERSALADID VASTVERSIONS VERIFICATIONVENDORS""".split())


def filled(url: str, values: Mapping[str, str]) -> str:
    """The `url` with each macro of `values` replaced by its value, and each other one of the standard by -1. What is no macro stays."""
    def value_of(found: re.Match[str]) -> str:
        name = (found[1] or found[2]).upper()
        if name in values:
            return urllib.parse.quote(values[name], safe="")
        return UNKNOWN if name in KNOWN else found[0]
    return MACRO.sub(value_of, url)


def of_each_request(now: datetime) -> dict[str, str]:
    """The values that each URL has of its own: a random number of eight digits, and the time `now`."""
    return {"CACHEBUSTING": f"{random.randrange(10**8):08}", "TIMESTAMP": now.isoformat(timespec="milliseconds").replace("+00:00", "Z")}


def of_break(planned: int | None, position: str) -> dict[str, str]:
    """The values that a request for the ads of a break has: its length of `planned` nanoseconds in whole seconds (unknown if none), and its
    `position` (1 before, 2 within, 3 after the programme)."""
    found = {"ADCOUNT": "1", "ADTYPE": "video", "BREAKPOSITION": position, "MEDIAMIME": "video/mp4", "PLACEMENTTYPE": "1", "SERVERSIDE": "1",
             "VASTVERSIONS": "2,3,5,6,7,8,11,12,13,14"}
    return found if planned is None else found | {"BREAKMAXDURATION": str(planned // 10**9)}
