"""The program adsplice itself, for what it is to judge: where it is, a run over one playlist, and a process of its own."""
import http.client
import os
import random
import shutil
import subprocess
import time
from pathlib import Path
from types import TracebackType

from .words import Fault

HERE = Path(__file__).resolve().parent.parent
USUAL = (HERE / "adsplice", HERE.parent / "adsplice.bin", HERE.parent / "out" / "adsplice", Path("/opt/adsplice/adsplice"))
SECONDS = 60  # for a run, and for an answer


def find_program(named: str | None) -> str:
    """The path of the program: `named`, or else beside the plant's programs, on the path, or in /opt/adsplice; raises Fault."""
    if named is not None:
        if not os.access(named, os.X_OK) or os.path.isdir(named):
            raise Fault(f"{named} isn't a program; --program names the built adsplice")
        return os.path.abspath(named)
    for it in USUAL:
        if it.is_file() and os.access(it, os.X_OK):
            return str(it)
    found = shutil.which("adsplice")
    if found is None:
        raise Fault("adsplice isn't found; --program names the built one")
    return found


def run_vod(program: str, base: str, playlist: bytes, decisions: bytes | None = None) -> tuple[bytes, str]:
    """What `program vod` writes for the playlist `playlist` under `base` with the decision file `decisions`, and its fault,
    which is empty if it succeeded."""
    words, held = [program, "vod", base], []
    try:
        if decisions is not None:  # (in memory: a file would be left behind if this process is killed)
            held.append(os.memfd_create("decisions"))
            with open(held[0], "wb", closefd=False) as it:
                it.write(decisions)
            words.append(f"/proc/self/fd/{held[0]}")
        done = subprocess.run(words, input=playlist, capture_output=True, timeout=SECONDS, check=False, pass_fds=held)
    except (OSError, subprocess.TimeoutExpired) as fault:
        raise Fault(f"{program}: {fault}") from None
    finally:
        for number in held:
            os.close(number)
    if done.returncode:
        return b"", done.stderr.decode("utf-8", "replace").strip() or f"status {done.returncode}"
    return done.stdout, ""


def is_taken(port: int) -> bool:
    """Whether something listens on `port` of this machine."""
    with open("/proc/net/tcp", encoding="ascii") as it:
        return any(line.split()[1].endswith(f":{port:04X}") for line in it)


class Process:
    """A process of adsplice on a free port, which ends with the block that it is made for."""

    def __init__(self, program: str) -> None:
        """`program`: the path of the built program."""
        self.port = next(it for _ in range(1000) if not is_taken(it := random.randrange(20_000, 32_768)))
        try:
            self.running = subprocess.Popen([program, "live", str(self.port), "4294967295"], stdin=subprocess.DEVNULL,
                                            stdout=subprocess.DEVNULL, stderr=subprocess.DEVNULL, start_new_session=True)
        except OSError as fault:
            raise Fault(f"{program}: {fault.strerror}") from None

    def __enter__(self) -> "Process":
        try:
            self.wait()
        except BaseException:  # (a signal, too: what was started ends)
            self.end()
            raise
        return self

    def wait(self) -> None:
        """Returns once the process answers; raises Fault if it doesn't."""
        for _ in range(SECONDS * 50):
            if self.running.poll() is not None:
                raise Fault(f"adsplice ended with status {self.running.returncode}")
            try:
                self.ask("GET", "/")
                return
            except OSError:
                time.sleep(0.02)
        raise Fault("adsplice doesn't answer")

    def end(self) -> None:
        """Ends the process."""
        self.running.kill()
        self.running.wait()

    def __exit__(self, _kind: type[BaseException] | None, _value: BaseException | None, _trace: TracebackType | None) -> None:
        self.end()

    def ask(self, method: str, path: str, body: bytes | None = None) -> tuple[int, str]:
        """The status and the body of the answer to a request of `method` for `path` with the bytes `body`."""
        connection = http.client.HTTPConnection("127.0.0.1", self.port, timeout=SECONDS)
        try:
            connection.request(method, path, body)
            reply = connection.getresponse()
            return reply.status, reply.read().decode("utf-8", "replace")
        except http.client.HTTPException as fault:
            raise OSError(str(fault)) from None
        finally:
            connection.close()
