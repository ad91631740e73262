"""What the scripts of this folder share: processes that are started and ended, nginx's example on ports of its own, requests."""
from __future__ import annotations

import argparse
import contextlib
import http.client
import os
import shutil
import signal
import socket
import subprocess
import sys
import tempfile
import time
import urllib.parse
from collections.abc import Callable, Iterable, Iterator, Mapping
from types import FrameType
from typing import Any, NoReturn

Process = subprocess.Popen[Any]

HERE = os.path.dirname(os.path.abspath(__file__))
ROOT = os.path.dirname(os.path.dirname(HERE))
# The Debian packages of programs that have another name.
PACKAGES = {"ip": "iproute2", "unshare": "util-linux", "python3-prometheus_client": "python3-prometheus-client"}


def is_there(name: str) -> bool:
    """Whether a program is installed, or a package of Debian's Python (`python3-httpx`, which adsplice-feed needs)."""
    if not name.startswith("python3-"):
        return shutil.which(name) is not None
    words = ["/usr/bin/python3", "-c", f"import {name.removeprefix('python3-')}"]
    return os.path.exists(words[0]) and subprocess.run(words, capture_output=True, check=False).returncode == 0


def lacking(*programs: str) -> str | None:
    """A sentence that names the programs that aren't installed, and the Debian packages that have them; or none."""
    names = [it for it in programs if not is_there(it)]
    if not names:
        return None
    packages = " ".join(PACKAGES.get(it, it) for it in names)
    return f"not installed: {', '.join(names)} (Debian: apt-get install {packages})"


def fail(text: str, status: int = 1) -> NoReturn:
    """Ends the script with a line on standard error and an exit status."""
    print(f"examples/live/{os.path.basename(sys.argv[0])}: {text}", file=sys.stderr, flush=True)
    sys.exit(status)


class Words(argparse.ArgumentParser):
    """Reads a script's words; wrong ones end it with one line and status 2."""

    def __init__(self, text: str | None, has_program: bool = True) -> None:
        """`text`: the help; `has_program`: whether the one word without a name is the program."""
        super().__init__(prog=f"examples/live/{os.path.basename(sys.argv[0])}", description=text, formatter_class=argparse.RawDescriptionHelpFormatter)
        if has_program:
            self.add_argument("program", nargs="?", metavar="PROGRAM", type=built_program, help="the built program; proved and built if none is named")

    def error(self, message: str) -> NoReturn:
        """Ends the script with `message` in one line."""
        fail(f"{message} (--help tells the words)", 2)


def counted(least: int, most: int) -> Callable[[str], int]:
    """A reader of a whole number from `least` to `most`."""
    def read(text: str) -> int:
        if not text.isascii() or not text.isdigit() or not least <= int(text) <= most:
            raise argparse.ArgumentTypeError(f"{text!r} isn't a whole number from {least} to {most}")
        return int(text)
    return read


def built_program(path: str) -> str:
    """The absolute path of a built program, for a reader of words. (A script such as ./adsplice is none: it would prove and
    build the program for half an hour, unseen.)"""
    if not os.path.isfile(path):
        raise argparse.ArgumentTypeError(f"there is no program {path}")
    with open(path, "rb") as it:
        is_built = it.read(4) == b"\x7fELF" and os.access(path, os.X_OK)
    if not is_built:
        raise argparse.ArgumentTypeError(f"{path} isn't the built program: ./install DIR proves and builds it, and copies it to DIR/adsplice")
    return os.path.abspath(path)


def find_program(named: str | None) -> str:
    """The built program: the one that is named, or else the one that tests/build proves and builds."""
    if named:
        return named
    with held_signals():
        it = subprocess.Popen([f"{ROOT}/tests/build"], stdin=subprocess.DEVNULL, stdout=subprocess.PIPE, text=True, start_new_session=True)
    try:
        text = it.communicate()[0].strip()
    except BaseException:  # (a signal: the proofs that it started end with it)
        with contextlib.suppress(OSError):
            os.killpg(it.pid, signal.SIGTERM)
        it.wait()
        raise
    if it.returncode:
        fail("the program couldn't be built")
    return text


# A signal that comes while something is started waits until that is known, so that it can be ended.
held = {"depth": 0, "number": 0}


@contextlib.contextmanager
def held_signals() -> Iterator[None]:
    """Within its block a signal that ends the script waits for the block's end."""
    held["depth"] += 1
    try:
        yield
    finally:
        held["depth"] -= 1
        if held["number"] and not held["depth"]:
            end_by(held["number"])


@contextlib.contextmanager
def temporary_room(prefix: str) -> Iterator[str]:
    """A folder that is gone with its block; nginx's workers may read it, which run as another user if root starts them."""
    path = None
    try:
        with held_signals():
            path = tempfile.mkdtemp(prefix=prefix)
        os.chmod(path, 0o755)
        yield path
    finally:
        if path:
            with held_signals():
                shutil.rmtree(path, ignore_errors=True)


def end_by(number: int) -> NoReturn:
    """Ends the script by a signal: one line, and then its blocks end what they started; further signals are no longer heard."""
    for it in (signal.SIGTERM, signal.SIGHUP, signal.SIGINT):
        signal.signal(it, signal.SIG_IGN)
    held["number"] = 0
    with contextlib.suppress(OSError):
        print(f"examples/live/{os.path.basename(sys.argv[0])}: ended by {signal.Signals(number).name}; ends what it started", file=sys.stderr, flush=True)
    sys.exit(128 + number)


def end_cleanly() -> None:
    """Has SIGTERM, SIGHUP and Ctrl-C end the script through its blocks, so that nothing that it started is left behind."""
    def heard(number: int, _: FrameType | None) -> None:
        held["number"] = number
        if not held["depth"]:
            end_by(number)

    for it in (signal.SIGTERM, signal.SIGHUP, signal.SIGINT):
        signal.signal(it, heard)


def free_ports(count: int) -> list[int]:
    """Ports of loopback that nothing listens on."""
    held = [socket.socket() for _ in range(count)]
    for it in held:
        it.bind(("127.0.0.1", 0))
    ports = [it.getsockname()[1] for it in held]
    for it in held:
        it.close()
    return ports


def taken(*ports: int) -> list[int]:
    """Those of the ports on which something listens."""
    found = []
    for port in ports:
        with socket.socket() as it:
            it.setsockopt(socket.SOL_SOCKET, socket.SO_REUSEADDR, 1)
            try:
                it.bind(("127.0.0.1", port))
            except OSError:
                found.append(port)
    return found


def wait_for(port: int, host: str = "127.0.0.1") -> None:
    """Returns once something listens on a port; ends the script if nothing does within 10 seconds."""
    for _ in range(200):
        try:
            socket.create_connection((host, port), 1).close()
            return
        except OSError:
            time.sleep(0.05)
    fail(f"nothing listens on port {port}")


class Processes:
    """Processes that end with the block that started them, the last one first; before them, what `stops` has to call."""

    def __init__(self) -> None:
        self.running: list[Process] = []
        self.stops: list[Callable[[], object]] = []

    def __enter__(self) -> Processes:
        return self

    def __exit__(self, *_: object) -> None:
        with held_signals():
            for stop in self.stops:
                stop()
            for it in reversed(list(self.running)):
                self.end(it)

    def start(self, words: list[str], **more: Any) -> Process:
        """Starts a process; its standard input is empty, and its standard error is left out unless `more` says where it goes."""
        more = {"stdin": subprocess.DEVNULL, "stdout": subprocess.DEVNULL, "stderr": subprocess.DEVNULL, **more}
        with held_signals():
            it = subprocess.Popen(words, **more)
            self.running.append(it)
        return it

    def end(self, it: Process, hard: bool = False) -> None:
        """Ends a process, by SIGKILL if it is to be hard."""
        if it in self.running:
            self.running.remove(it)
        if it.poll() is None:
            it.kill() if hard else it.terminate()
        try:
            it.wait(5)
        except subprocess.TimeoutExpired:
            it.kill()
            it.wait()

    def adsplice(self, program: str, port: int) -> Process:
        """Starts a process of adsplice, and waits until it listens."""
        it = self.start([program, "live", str(port), "4294967295"])
        wait_for(port)
        return it

    def nginx(self, configuration: str) -> Process:
        """Starts nginx with a configuration; its first lines of complaint are shown if it doesn't start."""
        tried = subprocess.run(["nginx", "-t", "-c", configuration], capture_output=True, text=True)
        if tried.returncode:
            fail(next(iter(tried.stderr.splitlines()), "nginx doesn't take its configuration"))
        return self.start(["nginx", "-c", configuration, "-g", "daemon off;"])


def write_aside(path: str, text: str) -> None:
    """Writes a file under another name and renames it, so that nobody reads a part of it."""
    with open(f"{path}.new", "w", encoding="utf-8") as it:
        it.write(text)
    os.replace(f"{path}.new", path)


def replaced(text: str, pairs: Iterable[tuple[str, str]]) -> str:
    """A text with each old part, which has to stand there, replaced by its new one."""
    for old, new in pairs:
        if old not in text:
            fail(f"nginx.conf has no {old!r} any more")
        text = text.replace(old, new)
    return text


SNIPPET = ("/etc/nginx/snippets/adsplice-viewers.conf", f"{HERE}/nginx-viewers.conf")  # where it is included from, and here

# The rest of a machine's configuration, of which nginx.conf is a part (conf.d).
FRAME = """worker_processes auto;
worker_rlimit_nofile 16384;
error_log /var/log/nginx/error.log warn;
pid /run/nginx.pid;
events { worker_connections 8000; }
http {
client_body_temp_path /var/log/nginx/body;
proxy_temp_path /var/log/nginx/proxy;
PART
}
"""


def framed(part: str) -> str:
    """A whole configuration of nginx whose part for conf.d is this."""
    return FRAME.replace("PART", part)


def configure_nginx(room: str, ports: list[int] | tuple[int, ...], viewers: int | str, operator: int, server: str = "",
                    changes: Iterable[tuple[str, str]] = ()) -> str:
    """Writes nginx.conf to a folder: the example on these ports within FRAME, its files in the folder, a server more; answers its path."""
    with open(f"{HERE}/nginx.conf", encoding="utf-8") as it:
        text = framed(it.read() + server)
    for folder in ("log", "cache", "moved"):
        os.makedirs(f"{room}/{folder}", exist_ok=True)
    pairs = [("127.0.0.1:8081", f"127.0.0.1:{ports[0]}"), ("127.0.0.1:8082", f"127.0.0.1:{ports[1]}"), ("808[12]", f"{ports[0]}|{ports[1]}"),
             ("listen 8080", f"listen {viewers}"), ("127.0.0.1:8090", f"127.0.0.1:{operator}"), ("/var/log/nginx", f"{room}/log"),
             ("/run/nginx.pid", f"{room}/nginx.pid"), ("/var/cache/adsplice", f"{room}/cache"), ("/etc/nginx/adsplice.d", f"{room}/moved"), SNIPPET, *changes]
    with open(f"{room}/nginx.conf", "w", encoding="utf-8") as it:
        it.write(replaced(text, pairs))
    return f"{room}/nginx.conf"


def request(method: str, url: str, body: str | bytes | None = None, fields: Mapping[str, str] | None = None) -> tuple[int, dict[str, str], str]:
    """A request's status, header fields (names in small letters) and body; status 0 if no answer came."""
    parts = urllib.parse.urlsplit(url)
    data = body.encode() if isinstance(body, str) else body
    connection = http.client.HTTPConnection(parts.hostname or "", parts.port or 80, timeout=15)
    try:
        connection.request(method, parts.path + (f"?{parts.query}" if parts.query else ""), data, fields or {})
        reply = connection.getresponse()
        return reply.status, {name.lower(): value for name, value in reply.getheaders()}, reply.read().decode()
    except (OSError, http.client.HTTPException):
        return 0, {}, ""
    finally:
        connection.close()


def put(url: str, body: str | bytes) -> int:
    """The status of a PUT."""
    return request("PUT", url, body)[0]


class Results:
    """What was checked: how many passed and failed; each failure is printed as it comes."""

    def __init__(self) -> None:
        self.passed = self.failed = 0

    def check(self, is_well: object, what: str) -> bool:
        """Counts a check, and prints what it was of if it failed."""
        if is_well:
            self.passed += 1
        else:
            self.failed += 1
            print(f"FAILED: {what}", flush=True)
        return bool(is_well)

    def end(self) -> int:
        """Prints the last line, 'N passed, M failed', and answers the exit status."""
        print(f"{self.passed} passed, {self.failed} failed")
        return 1 if self.failed else 0
