"""What `authd listen` costs: requests a second and instructions a request, for numbers of workers and of connections
at once, and the memory of workers that wait. Each request is a GET of a file of six bytes by Digest with SHA-256."""
import concurrent.futures
import pathlib
import re
import shutil
import tempfile
import time

import client
from counting import CALLGRIND
from server import Server

WORKERS = (1, 4)
CONNECTIONS = (1, 2, 8)
REQUESTS = 800
COUNTED = (10, 50)
IDLE_WORKERS = 64


def serve_requests(server, requests):
    """So many requests on one connection, each behind the reply to the last; all but the first have credentials."""
    with server.connect() as connection, connection.makefile("rb") as stream:
        connection.sendall(client.request())
        nonce = client.nonce_in(client.read_reply(stream)[0])
        for count in range(1, requests):
            connection.sendall(client.request(client.credentials(nonce, count)))
            head, _ = client.read_reply(stream)
            if not head.startswith("HTTP/1.1 200 "):
                raise OSError("a request isn't admitted")


def serve_connections(workers, connections, requests, before=()):
    """So many connections, each by a client of its own, and then what else the workers wait for. Answers the seconds that
    the connections took."""
    with Server(workers, connections, before=before) as server:
        started = time.monotonic()
        with concurrent.futures.ThreadPoolExecutor(connections) as pool:
            list(pool.map(lambda _: serve_requests(server, requests), range(connections)))
        seconds = time.monotonic() - started
        for _ in range(connections * (workers - 1)):
            server.connect().close()
        server.totals()
        return seconds


def instructions(workers, connections):
    """The instructions of a request, by the difference of two runs, or nothing where there is no valgrind."""
    if not shutil.which("valgrind"):
        return ""
    counts = []
    for requests in COUNTED:
        with tempfile.NamedTemporaryFile("r") as log:
            serve_connections(workers, connections, requests, [*CALLGRIND, f"--log-file={log.name}"])
            counts.append(int(re.search(r"Collected : (\d+)", log.read()).group(1)))
    return (counts[1] - counts[0]) // (connections * (COUNTED[1] - COUNTED[0]))


def idle_memory():
    """The memory of the program in kilobytes where all of its workers wait."""
    with Server(IDLE_WORKERS, 1) as server:
        status = pathlib.Path(f"/proc/{server.program.pid}/status").read_text()
        return int(re.search(r"VmRSS:\s+(\d+) kB", status).group(1))


def measure_listen():
    print(f"{'workers':>7} {'connections':>11} {'requests a second':>17} {'instructions':>12}")
    for workers in WORKERS:
        for connections in CONNECTIONS:
            seconds = serve_connections(workers, connections, REQUESTS)
            rate = connections * REQUESTS / seconds
            print(f"{workers:>7} {connections:>11} {rate:>17.0f} {instructions(workers, connections):>12}", flush=True)
    print(f"{IDLE_WORKERS} workers that wait: {idle_memory()} kB")
