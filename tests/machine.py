"""A clean machine in namespaces of this one: Debian's systemd over a copy of this file system that is thrown away.

The copy is an overlay, so nothing is written to this machine. The machine has a network of its own, in which ORIGIN and ADS are names of
itself. /sys and the kernel's settings are read-only there. All that runs on it ends with it. It needs root, and Debian's systemd.
"""
from __future__ import annotations

import os
import shutil
import signal
import subprocess
import tempfile
import time
from types import TracebackType

ORIGIN, ADS = "origin.example", "ads.example"
HOME = "/root/adsplice"  # where the repository is
SECONDS = 60.0  # until a machine has to be up
LEFT = ("/opt/adsplice", "/etc/adsplice", "/var/lib/adsplice", "/usr/lib/adsplice", "/var/www/ch", "/usr/sbin/policy-rc.d")  # of an installation on this machine, and of an image
SERVE_ORIGIN = "(setsid python3 /usr/local/bin/origin >/dev/null 2>&1 &); sleep 1"  # serves a packager's playlist at http://ORIGIN/ch/index.m3u8, and at that name in each folder
ORIGIN_SERVER = '''
import time
from datetime import datetime, timezone
from http.server import BaseHTTPRequestHandler, ThreadingHTTPServer

def stamp(seconds):
    return datetime.fromtimestamp(seconds, timezone.utc).strftime("%Y-%m-%dT%H:%M:%S.000Z")

def playlist(now):
    """30 segments of 2 s that end now, by the clock; a break of 10 s begins every 30 s."""
    last = int(now) // 2
    lines = ["#EXTM3U", "#EXT-X-VERSION:3", "#EXT-X-TARGETDURATION:2", f"#EXT-X-MEDIA-SEQUENCE:{last - 30}"]
    for number in range(last - 30, last):
        lines += ["#EXT-X-CUE-OUT:10"] * (number % 15 == 0) + ["#EXT-X-CUE-IN"] * (number % 15 == 5)
        lines += [f"#EXT-X-PROGRAM-DATE-TIME:{stamp(2 * number)}", "#EXTINF:2.0,", f"s{number}.ts"]
    return "\\n".join(lines) + "\\n"

class Handler(BaseHTTPRequestHandler):
    def do_GET(self):
        body = playlist(time.time()).encode() if self.path.endswith("/index.m3u8") else b"x"
        self.send_response(200)
        self.send_header("Content-Length", str(len(body)))
        self.end_headers()
        self.wfile.write(body)
    do_HEAD = do_GET
    def log_message(self, *_):
        pass

ThreadingHTTPServer(("127.0.0.1", 80), Handler).serve_forever()
'''
BOOT = r"""
set -eu
room=$1 repository=$2
mount -t tmpfs -o size=6G tmpfs "$room"
mkdir "$room"/up "$room"/work "$room"/root "$room"/own "$room"/own-work
root=$room/root
mount -t overlay overlay -o "lowerdir=/,upperdir=$room/up,workdir=$room/work" "$root"
mkdir -p "$root/root/adsplice"
mount -t overlay overlay -o "lowerdir=$repository,upperdir=$room/own,workdir=$room/own-work" "$root/root/adsplice"
mount -t proc proc "$root/proc"
mount --bind "$root/proc/sys" "$root/proc/sys"
mount -o remount,bind,ro "$root/proc/sys"
mount -t sysfs -o ro sysfs "$root/sys"
mount -t cgroup2 cgroup2 "$root/sys/fs/cgroup"
mount -t tmpfs -o mode=755 tmpfs "$root/dev"
for it in null zero full random urandom tty; do touch "$root/dev/$it"; mount --bind "/dev/$it" "$root/dev/$it"; done
mkdir "$root/dev/pts" "$root/dev/shm"
mount -t devpts -o newinstance,ptmxmode=0666 devpts "$root/dev/pts"
ln -s pts/ptmx "$root/dev/ptmx"; ln -s /proc/self/fd "$root/dev/fd"
ln -s /proc/self/fd/0 "$root/dev/stdin"; ln -s /proc/self/fd/1 "$root/dev/stdout"; ln -s /proc/self/fd/2 "$root/dev/stderr"
mount -t tmpfs tmpfs "$root/run"
mount -t tmpfs tmpfs "$root/tmp"
ip link set lo up
hostname "$6"
echo "$6" >"$root/etc/hostname"
printf '127.0.0.1 localhost %s %s %s viewers.example\n' "$6" "$3" "$4" >"$root/etc/hosts"
for it in $5; do rm -rf "$root$it"; done
rm -rf "$root/var/log/journal" "$root"/etc/systemd/system/*.wants
cd "$root"
mkdir -p old_root
pivot_root . old_root  # (a chroot may have no user namespaces, which units ask for)
umount -l old_root
exec /usr/bin/env -i container=other PATH=/usr/sbin:/usr/bin:/sbin:/bin /lib/systemd/systemd --system --unit=basic.target --log-target=null
"""


def lacking() -> str:
    """Why there can be no machine here; an empty text if there can."""
    if os.geteuid() != 0:
        return "it needs root"
    return next((f"{it} isn't there" for it in ("unshare", "nsenter", "pivot_root", "ip") if not shutil.which(it)), "" if os.path.exists("/lib/systemd/systemd") else "systemd isn't there")


class Machine:
    """A machine called `name` that has the repository at the path `repository` in HOME, and the built `program` where tests/build finds it. A program
    that `is_unproved` has checks at run time, which need more memory than its unit allows; there the unit's limits of memory don't hold."""

    def __init__(self, repository: str, program: str, is_unproved: bool = False, name: str = "tv1") -> None:
        self.repository, self.program, self.is_unproved, self.name = repository, program, is_unproved, name
        self.room = tempfile.mkdtemp(prefix="machine-")
        self.outer: subprocess.Popen[bytes] | None = None
        self.init = 0

    def __enter__(self) -> Machine:
        """Starts it, and waits until it is up. Raises OSError if it isn't up in time."""
        apart = ["unshare", "--mount", "--net", "--pid", "--ipc", "--uts", "--cgroup", "--fork", "--kill-child"]
        self.outer = subprocess.Popen([*apart, "sh", "-c", BOOT, "boot", self.room, self.repository, ORIGIN, ADS, " ".join(LEFT), self.name], stdin=subprocess.DEVNULL, stdout=subprocess.DEVNULL, start_new_session=True)
        until = time.monotonic() + SECONDS
        try:
            while time.monotonic() < until:
                time.sleep(0.3)
                children = subprocess.run(["pgrep", "-P", str(self.outer.pid)], capture_output=True, text=True, check=False).stdout.split()
                self.init = int(children[0]) if children else 0
                if self.init and self.run("systemctl is-active basic.target")[0] == 0:
                    self.settle()
                    return self
        except BaseException:
            self.end()
            raise
        self.end()
        raise OSError(f"the machine isn't up after {SECONDS:.0f} s")

    def settle(self) -> None:
        """Puts the program where tests/build finds it, and has nginx run as it does after its installation."""
        with open(self.program, "rb") as it:
            self.write(f"{HOME}/out/adsplice", it.read(), 0o755)
        self.write("/usr/local/bin/origin", ORIGIN_SERVER.encode())
        if self.is_unproved:
            self.write("/etc/systemd/system/adsplice@.service.d/memory.conf", b"[Service]\nLimitAS=infinity\nMemoryMax=infinity\n")
        self.run("systemctl start dbus; rm -f /etc/nginx/sites-enabled/*; systemctl start nginx")

    def write(self, path: str, data: bytes, mode: int = 0o644) -> None:
        """Writes the file `path` of the machine with this `data` and `mode`. Raises OSError if it can't."""
        done = subprocess.run(self.inside(f"mkdir -p '{os.path.dirname(path)}' && cat >'{path}' && chmod {mode:o} '{path}'"), input=data, capture_output=True, check=False)
        if done.returncode:
            raise OSError(f"{path}: {done.stderr.decode(errors='replace').strip()}")

    def inside(self, command: str, folder: str = HOME) -> list[str]:
        """The words that run the shell's `command` on the machine, in its `folder`."""
        enter = ["nsenter", f"--target={self.init}", "--mount", "--net", "--pid", "--ipc", "--uts", "--cgroup", "--root", "--wd"]
        clean = ["env", "-i", "HOME=/root", "LANG=C.UTF-8", "PATH=/opt/adsplice:/usr/local/sbin:/usr/local/bin:/usr/sbin:/usr/bin:/sbin:/bin"]
        return [*enter, *clean, "bash", "-c", f"cd '{folder}' && {command}"]

    def run(self, command: str, folder: str = HOME, seconds: float = 300) -> tuple[int, str]:
        """Runs the shell's `command`: its status, and what it printed. The status is -1 if it hasn't ended after so many `seconds`."""
        try:
            done = subprocess.run(self.inside(command, folder), stdin=subprocess.DEVNULL, stdout=subprocess.PIPE, stderr=subprocess.STDOUT, timeout=seconds, check=False)
        except subprocess.TimeoutExpired as late:
            return -1, (late.output or b"").decode(errors="replace")
        return done.returncode, done.stdout.decode(errors="replace")

    def start(self, command: str, folder: str = HOME) -> subprocess.Popen[bytes]:
        """Starts a `command` that goes on until it is ended; it ends with the machine at the latest."""
        return subprocess.Popen(self.inside(f"exec {command}", folder), stdin=subprocess.DEVNULL, stdout=subprocess.PIPE, stderr=subprocess.STDOUT, start_new_session=True)

    def end(self) -> None:
        """Ends all that runs on the machine, and throws it away."""
        if self.outer is not None:
            if self.init:
                try:
                    os.kill(self.init, signal.SIGKILL)
                except ProcessLookupError:
                    pass
            self.outer.kill()
            self.outer.wait()
        shutil.rmtree(self.room, ignore_errors=True)

    def __exit__(self, kind: type[BaseException] | None, value: BaseException | None, trace: TracebackType | None) -> None:
        self.end()


class Network:
    """A switch that machines are joined to, in a network of its own."""

    def __init__(self) -> None:
        self.holder = subprocess.Popen(["unshare", "--net", "sleep", "infinity"], stdin=subprocess.DEVNULL)

    def __enter__(self) -> Network:
        """It is there. Raises OSError if it can't be."""
        own, until = os.readlink("/proc/self/ns/net"), time.monotonic() + SECONDS
        while os.readlink(f"/proc/{self.holder.pid}/ns/net") == own and time.monotonic() < until:
            time.sleep(0.1)
        self.ip("link", "add", "switch", "type", "bridge")
        self.ip("link", "set", "switch", "up")
        return self

    def ip(self, *words: str) -> None:
        """Runs iproute2's `ip` with these `words` in it; raises OSError with what it says if it fails."""
        done = subprocess.run(["nsenter", f"--target={self.holder.pid}", "--net", "ip", *words], capture_output=True, text=True, check=False)
        if done.returncode:
            raise OSError(f"ip {' '.join(words)}: {done.stderr.strip()}")

    def join(self, machine: Machine, address: str) -> None:
        """Joins the `machine` to it: its eth0 has the `address`, with the length of its prefix."""
        self.ip("link", "add", machine.name, "type", "veth", "peer", "name", "eth0", "netns", str(machine.init))
        self.ip("link", "set", machine.name, "master", "switch", "up")
        status, text = machine.run(f"ip addr add {address} dev eth0 && ip link set eth0 up")
        if status:
            raise OSError(f"{machine.name}: {text.strip()}")

    def __exit__(self, kind: type[BaseException] | None, value: BaseException | None, trace: TracebackType | None) -> None:
        self.holder.kill()
        self.holder.wait()
