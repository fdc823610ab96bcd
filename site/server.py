"""`authd` with a command that listens, on a free port of the loopback."""
import pathlib
import re
import socket
import subprocess
import sys
import time

import client

SITE = pathlib.Path(__file__).resolve().parent
PROGRAM = SITE.parent / "crates/authd/out/authd"
SECONDS = 20


def free_port():
    with socket.create_server(("127.0.0.1", 0)) as listener:
        return listener.getsockname()[1]


def is_open(port):
    """Whether somebody listens on the port, by the system's tables of sockets."""
    tables = [pathlib.Path("/proc/net/tcp").read_text(), pathlib.Path("/proc/net/tcp6").read_text()]
    return any(re.search(rf": [0-9A-F]+:{port:04X} 0+:0000 0A", table) for table in tables)


def listens(port):
    """Whether somebody listens on the port, after waiting for it."""
    for _ in range(200):
        if is_open(port):
            return True
        time.sleep(0.1)
    return False


def expect(what, found, wanted):
    """Ends the check where something isn't as it should be."""
    if found != wanted:
        sys.exit(f"failed: {what}: {found!r}, and not {wanted!r}")


class Program:
    """`authd` with a command that listens over these files, for so many workers and connections a worker. It has to end by
    itself. Its words may stand behind others, as those of valgrind."""

    def __init__(self, command, files, workers, connections, before=()):
        self.port = free_port()
        words = [command, *files, f"127.0.0.1:{self.port}", str(workers), str(connections)]
        self.program = subprocess.Popen(
            [*before, PROGRAM, *words], stdout=subprocess.PIPE, stderr=subprocess.STDOUT, text=True
        )
        if not listens(self.port):
            sys.exit("failed: nobody listens")

    def __enter__(self):
        return self

    def __exit__(self, *error):
        if self.program.poll() is None:
            self.program.kill()

    def totals(self):
        """The numbers that the program tells at its end: calls, issued, admitted, repeated."""
        said, _ = self.program.communicate(timeout=SECONDS)
        found = re.fullmatch(r"calls (\d+) issued (\d+) admitted (\d+) repeated (\d+)\n", said)
        if self.program.returncode or not found:
            sys.exit(f"failed: status {self.program.returncode}, {said!r}")
        return tuple(int(it) for it in found.groups())


class Server(Program):
    """`authd listen` over a site."""

    def __init__(self, workers, connections, site=SITE, before=()):
        files = [site / "store.txt", site / "spaces.txt", site / "www"]
        super().__init__("listen", files, workers, connections, before)

    def url(self):
        return f"http://127.0.0.1:{self.port}{client.TARGET}"

    def connect(self):
        return socket.create_connection(("127.0.0.1", self.port), SECONDS)

    def ask(self, line=""):
        """One request on a connection of its own: the head of its reply."""
        with self.connect() as connection, connection.makefile("rb") as stream:
            connection.sendall(client.request(line))
            return client.read_reply(stream)[0]
