"""A live server of the built program, and requests to it."""
import importlib.machinery
import importlib.util
import os
import re
import resource
import socket
import subprocess
import sys
import tempfile
import time

from programs import TOP

MAX_CONNECTIONS = 4_294_967_295
BODY = b'{"base":"http://origin.example/ch/index.m3u8"}'


def module_of(path):
    """A script of tests/, which has no ending, as a module."""
    loader = importlib.machinery.SourceFileLoader(os.path.basename(path), path)
    made = importlib.util.module_from_spec(importlib.util.spec_from_loader(loader.name, loader))
    loader.exec_module(made)
    return made


run_live = module_of(str(TOP / "tests/run_live"))
sys.path.append(str(TOP / "tests/live"))


def program_of(folder):
    """The path of adsplice: of this folder, or proved and built."""
    if folder:
        return os.path.abspath(os.path.join(folder, "adsplice"))
    return subprocess.run([str(TOP / "tests/build")], check=True, stdout=subprocess.PIPE, text=True).stdout.strip()


def put(path, body):
    return b"PUT %s HTTP/1.1\r\nContent-Length: %d\r\n\r\n%s" % (path, len(body), body)


def get(path):
    return b"GET %s HTTP/1.1\r\nHost: h\r\n\r\n" % path


class Server(run_live.Server):
    """A server for as many connections as may be, whose faults go to a file. `room`: bytes of address space."""

    def __init__(self, program, room=None):
        self.port, self.faults = run_live.free_port(), tempfile.TemporaryFile()

        def limit():
            if room:
                resource.setrlimit(resource.RLIMIT_AS, (room, room))

        self.running = subprocess.Popen([program, "live", str(self.port), str(MAX_CONNECTIONS)], stdin=subprocess.DEVNULL,
                                        stdout=subprocess.DEVNULL, stderr=self.faults, preexec_fn=limit)

    def ask(self, request):
        """What the server answers to these bytes, which may be very long, up to the end of the connection."""
        with self.connect() as it:
            is_sent(it, request)
            return read_all(it)

    def timed(self, request):
        """A reply, and the seconds that it took from the first step to connect on."""
        begun = time.monotonic()
        reply = self.ask(request)
        return reply, time.monotonic() - begun

    def most_memory(self):
        """The most bytes that the server had in memory."""
        with open(f"/proc/{self.running.pid}/status", encoding="ascii") as it:
            return int(re.search(r"VmHWM:\s+(\d+) kB", it.read())[1]) << 10

    def is_running(self):
        return self.running.poll() is None

    def told(self):
        """The lines of standard error."""
        self.faults.seek(0)
        return self.faults.read().decode("utf-8", "replace").splitlines()

    def stop(self):
        self.running.terminate()
        self.running.wait()


def is_sent(it, text):
    """Sends what the server takes; whether it took all."""
    try:
        it.sendall(text)
        return True
    except OSError:
        return False


def read_all(it):
    found = []
    while True:
        try:
            some = it.recv(1 << 20)
        except ConnectionResetError:
            some = b""
        if not some:
            return b"".join(found)
        found.append(some)


def reset(it):
    """Goes away without a word."""
    it.setsockopt(socket.SOL_SOCKET, socket.SO_LINGER, b"\x01\0\0\0\0\0\0\0")
    it.close()
