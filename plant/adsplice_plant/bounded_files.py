"""Files of folders into which others write, too: no link is followed, nothing but a regular file is read, and no more than its bytes."""
from __future__ import annotations

import errno
import itertools
import os
import stat
import time
from collections.abc import Iterator
from contextlib import ExitStack, contextmanager, suppress
from pathlib import Path
from typing import BinaryIO

from .events import Stamp

FLAGS = os.O_RDONLY | os.O_NONBLOCK | os.O_CLOEXEC | os.O_NOCTTY

LOOKED = 4  # times the most files of a folder, that are looked at when old ones are taken away


class Unread(Exception):
    """A file that isn't taken; its text says why."""


def stamp_of(found: os.stat_result) -> Stamp:
    """What shows that a file changed."""
    return found.st_mtime_ns, found.st_size, found.st_ino


@contextmanager
def opened(path: Path | str, folder: int | None = None) -> Iterator[int]:
    """The descriptor of the folder `path`; one in the open `folder` may be no link. Raises OSError."""
    follows = 0 if folder is None else os.O_NOFOLLOW
    handle = os.open(path, os.O_RDONLY | os.O_DIRECTORY | os.O_CLOEXEC | follows, dir_fd=folder)
    try:
        yield handle
    finally:
        os.close(handle)


@contextmanager
def made(name: str, folder: int) -> Iterator[int]:
    """The descriptor of the folder `name` in the open `folder`, which is made if it isn't there. Raises OSError, also if it is a link."""
    with suppress(FileExistsError):
        os.mkdir(name, dir_fd=folder)
    with opened(name, folder) as it:
        yield it


@contextmanager
def regular(path: Path | str, folder: int | None = None) -> Iterator[tuple[BinaryIO, Stamp]]:
    """The regular file `path`, open to be read, and its stamp; one in the open `folder` may be no link. Nobody waits for a pipe. Raises Unread if
    it is another kind of file, or OSError."""
    try:
        handle = os.open(path, FLAGS | (0 if folder is None else os.O_NOFOLLOW), dir_fd=folder)
    except OSError as fault:
        if fault.errno in (errno.ELOOP, errno.ENXIO):  # (ENXIO: a socket)
            raise Unread("is a link, or no regular file") from None
        raise
    try:
        found = os.fstat(handle)
        if not stat.S_ISREG(found.st_mode):
            raise Unread("is no regular file")
    except BaseException:
        os.close(handle)  # (a folder's isn't closed by who fails to open it as a file)
        raise
    with open(handle, "rb") as it:
        yield it, stamp_of(found)


@contextmanager
def regular_below(folder: Path, path: Path) -> Iterator[tuple[BinaryIO, Stamp]]:
    """The regular file `path`, which is relative to `folder` and below it, as above: no part of the path is a link. Raises Unread or OSError."""
    with ExitStack() as stack:
        handle = stack.enter_context(opened(folder))
        for part in path.parts[:-1]:
            handle = stack.enter_context(opened(part, handle))
        yield stack.enter_context(regular(path.name, handle))


def bytes_of(it: BinaryIO, stamp: Stamp, most: int) -> bytes:
    """The bytes of the file `it` with its `stamp`; raises Unread if there are more than `most`, or OSError."""
    if stamp[1] > most:
        raise Unread(f"has {stamp[1]} bytes, over {most}")
    body = it.read(most + 1)
    if len(body) > most:
        raise Unread(f"has over {most} bytes")
    return body


def read(path: Path | str, folder: int | None = None, *, most: int) -> tuple[Stamp, bytes]:
    """The stamp and the bytes of the file `path`; one in the open `folder` may be no link. Raises Unread if it isn't a regular file of `most`
    bytes, or OSError."""
    with regular(path, folder) as (it, stamp):
        return stamp, bytes_of(it, stamp, most)


def write(name: str, body: bytes, folder: int, is_synced: bool = False) -> None:
    """Writes `body` to the file `name` of the open `folder`: it is there as a whole, or as it was; on disk after that if `is_synced`. Raises OSError."""
    aside = f".{name}.new"
    with suppress(FileNotFoundError):
        os.unlink(aside, dir_fd=folder)  # (whatever it is: nobody opens a link or a pipe)
    try:
        with open(os.open(aside, os.O_WRONLY | os.O_CREAT | os.O_EXCL | os.O_NOFOLLOW | os.O_CLOEXEC, 0o664, dir_fd=folder), "wb") as it:
            it.write(body)
            it.flush()
            if is_synced:
                os.fsync(it.fileno())
        os.replace(aside, name, src_dir_fd=folder, dst_dir_fd=folder)
    except OSError:
        with suppress(OSError):
            os.unlink(aside, dir_fd=folder)
        raise
    if is_synced:
        os.fsync(folder)


def clean(folder: int, age: float, most: int) -> None:
    """Takes the files away that are in the open `folder` for more than `age` seconds, and the oldest of those that are more than `most`. Of a folder
    with very many entries a part is looked at each time. Raises OSError."""
    there, oldest = [], time.time() - age
    with os.scandir(folder) as found:
        for it in itertools.islice(found, LOOKED * most):
            with suppress(FileNotFoundError):
                there.append((it.stat(follow_symlinks=False).st_mtime, it.name))
    for place, (written, name) in enumerate(sorted(there, reverse=True)):
        if place >= most or written < oldest:
            with suppress(IsADirectoryError, FileNotFoundError):
                os.unlink(name, dir_fd=folder)
