"""Files that are there as a whole or as they were, whoever reads them meanwhile, and who may read what is written."""
import errno
import os
import stat
from pathlib import Path

KEPT_MODE = 0o640  # of what is kept: keys' URIs and decisions are in it
VIEWERS_MODE = 0o644  # of what a web server reads, whatever the umask is; others may write into its folder


def write_aside(path: Path, body: bytes, mode: int = KEPT_MODE) -> None:
    """Writes `body` to the file `path` with this `mode`, under another name, and renames that: it is there as a whole, or as it was. Nobody waits
    for a pipe, and in a folder of others no link is followed. Raises OSError."""
    aside, is_others = path.with_name(f".{path.name}.new"), mode == VIEWERS_MODE
    flags = os.O_WRONLY | os.O_CREAT | os.O_TRUNC | os.O_NONBLOCK | os.O_CLOEXEC | (os.O_NOFOLLOW if is_others else 0)
    with open(os.open(aside, flags, mode), "wb") as it:
        if is_others and not stat.S_ISREG(os.fstat(it.fileno()).st_mode):
            raise OSError(errno.EEXIST, "it is no regular file", str(aside))
        it.write(body)
        it.flush()
        if is_others:
            os.fchmod(it.fileno(), mode)
    os.replace(aside, path)
