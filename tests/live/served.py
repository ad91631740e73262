"""A running server of the built program, as its clients see it."""
import socket
import subprocess

SECONDS = 60  # for one connection, or for a server to end


class Served:
    """A server that runs as the process `running` and listens at `port`."""

    def connect(self):
        return socket.create_connection(("127.0.0.1", self.port), SECONDS)

    def ask(self, request, half_close=False):
        """What the server answers to these bytes, up to the end of the connection. `half_close`: the request ends there."""
        with self.connect() as it:
            try:
                it.sendall(request)
                if half_close:
                    it.shutdown(socket.SHUT_WR)
            except (BrokenPipeError, ConnectionResetError):
                pass  # (it was answered before it was read whole)
            return read_all(it)

    def end(self):
        """Its status, and what it printed."""
        try:
            out, err = self.running.communicate(timeout=SECONDS)
        except subprocess.TimeoutExpired:
            self.running.kill()
            out, err = self.running.communicate()
            err += b"(it did not end)"
        return self.running.returncode, out, err


def read_all(it):
    found = b""
    while True:
        try:
            some = it.recv(1 << 16)
        except ConnectionResetError:
            return found + b"(reset)"
        if not some:
            return found
        found += some
