"""An origin server by nginx for files of a folder, and what a list of it says."""
from __future__ import annotations

import os
import re
from datetime import datetime, timezone

STATIC = """worker_processes 1;
error_log ROOM/NAME/error.log warn;
pid ROOM/NAME/nginx.pid;
events { worker_connections 1000; }
http {
    access_log off;
    types { text/html html; video/mp2t ts; application/vnd.apple.mpegurl m3u8; }
    server {
        listen 127.0.0.1:PORT;
        root FOLDER;
        add_header Access-Control-Allow-Origin "*";
    }
}
"""


def write(room: str, name: str, port: int, folder: str) -> str:
    """Writes a configuration of nginx that serves the files of a folder on a port of loopback; answers its path."""
    os.makedirs(f"{room}/{name}", exist_ok=True)
    text = STATIC.replace("ROOM", room).replace("NAME", name).replace("PORT", str(port)).replace("FOLDER", folder)
    with open(f"{room}/{name}/nginx.conf", "w", encoding="utf-8") as it:
        it.write(text)
    return f"{room}/{name}/nginx.conf"


def instant_of(text: str) -> float:
    """An instant that a list states, in seconds from 1970."""
    return datetime.strptime(text.replace("Z", "+0000"), "%Y-%m-%dT%H:%M:%S.%f%z").timestamp()


def instant_text(seconds: float) -> str:
    """An instant as ffmpeg writes it."""
    return datetime.fromtimestamp(seconds, timezone.utc).strftime("%Y-%m-%dT%H:%M:%S.%f")[:-3] + "+0000"


def end_of(text: str) -> float | None:
    """When a written list ends, in seconds from 1970: its last stated instant and the durations after it; none without one."""
    end = None
    for line in text.splitlines():
        if line.startswith("#EXT-X-PROGRAM-DATE-TIME:"):
            end = instant_of(line.split(":", 1)[1])
        elif line.startswith("#EXTINF:") and end is not None:
            end += float(line[8:].partition(",")[0])
    return end


def last_number(path: str) -> int:
    """The number of the last segment that a packager's list has."""
    with open(path, encoding="utf-8") as it:
        text = it.read()
    return first_number(text) + text.count("#EXTINF:") - 1


def first_number(text: str) -> int:
    """The number of the first segment of a packager's list, which has to say it."""
    found = re.search(r"^#EXT-X-MEDIA-SEQUENCE:(\d+)$", text, re.M)
    assert found is not None
    return int(found[1])
