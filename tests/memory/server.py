"""A server of the built program, to which memory can be refused while it serves one connection."""
import os
import random
import socket
import subprocess
import sys
import time

sys.path.append(os.path.join(os.path.dirname(os.path.dirname(os.path.abspath(__file__))), "live"))
from served import SECONDS, Served  # noqa: E402


class Server(Served):
    """A fresh server for so many connections. `ports`: those that no other server of this run is given."""

    def __init__(self, program, control, count, ports):
        while not self.is_begun(program, control, count, free_port(ports)):
            pass  # (somebody took the port)

    def is_begun(self, program, control, count, port):
        """Begins the server, and keeps its first connection, by which it is known to listen."""
        self.port = port
        self.running = subprocess.Popen([program, "live", str(port), str(count)], stdin=subprocess.DEVNULL,
                                        stdout=subprocess.PIPE, stderr=subprocess.PIPE, env=os.environ | control.environment)
        until = time.monotonic() + SECONDS
        while time.monotonic() < until:
            if self.running.poll() is not None:
                ended = self.end()
                if ended != (1, b"", b"cannot bind\n"):
                    raise OSError(f"the server ended: {ended}")
                return False
            try:
                self.first = super().connect()
                return True
            except ConnectionRefusedError:
                time.sleep(0.0005)
        self.running.kill()
        raise TimeoutError("the server doesn't listen")

    def connect(self):
        """The first connection, and then fresh ones."""
        first, self.first = self.first, None
        return first or super().connect()


def free_port(ports):
    """One of these ports of the loopback address, on which nobody listens."""
    for _ in range(len(ports)):
        port = random.choice(ports)
        with socket.socket() as it:
            it.setsockopt(socket.SOL_SOCKET, socket.SO_REUSEADDR, 1)
            try:
                it.bind(("127.0.0.1", port))
                return port
            except OSError:
                pass  # (somebody has it)
    raise OSError("no port is free")
