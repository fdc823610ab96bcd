"""What `authget` costs: instructions a byte of a large body and the memory for it, and what each further URL costs behind
the first, over `authd listen` with Digest and SHA-256."""
import pathlib
import re
import shutil
import subprocess
import tempfile

import client
from counting import CALLGRIND, SECONDS
from server import SITE, Server

AUTHGET = SITE.parent / "crates/authget/out/authget"
LARGE = 16_000_000
URLS = 16


def fetch(server, path, urls, before=()):
    """Fetches a path so many times in one run, and answers the body."""
    words = [*before, AUTHGET, client.NAME, *[f"http://127.0.0.1:{server.port}{path}"] * urls]
    said = subprocess.run(words, input=client.PASSWORD.encode() + b"\n", capture_output=True, timeout=SECONDS)
    if said.returncode:
        raise OSError(f"authget ended with {said.returncode}: {said.stderr.decode()}")
    return said.stdout


def instructions(server, path, urls=1):
    with tempfile.NamedTemporaryFile("r") as log:
        fetch(server, path, urls, [*CALLGRIND, f"--log-file={log.name}"])
        return int(re.search(r"Collected : (\d+)", log.read()).group(1))


def memory(server, path):
    """The most memory of a run in kilobytes, by GNU time."""
    with tempfile.NamedTemporaryFile("r") as log:
        fetch(server, path, 1, ["/usr/bin/time", "-f", "%M", "-o", log.name])
        return int(log.read().split()[-1])


def measure_fetch():
    with tempfile.TemporaryDirectory() as folder:
        site = pathlib.Path(folder) / "site"
        shutil.copytree(SITE, site)
        (site / "www/large").write_bytes(bytes(LARGE))
        # each URL but a first one takes one connection
        with Server(4, 1000, site) as server:
            small, large = (instructions(server, path) for path in (client.TARGET, "/large"))
            print(f"a body of {LARGE} bytes: {(large - small) / LARGE:.2f} instructions a byte")
            if pathlib.Path("/usr/bin/time").exists():
                print(f"a body of {LARGE} bytes: {memory(server, '/large')} kB")
            more = (instructions(server, client.TARGET, URLS) - small) // (URLS - 1)
            print(f"a first URL: {small} instructions; each of {URLS - 1} more with its nonce: {more}")
