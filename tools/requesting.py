"""What an admitted request costs by `authd pipe` and `authd listen`: instructions by valgrind, for kinds of Digest and for
sizes of what is fetched and put, and which part of the program they are spent in. Each request comes over a connection
that is kept, by `qop=auth` (RFC 7616), and the figure is the difference of two runs over that of their numbers."""
import contextlib
import hashlib
import pathlib
import re
import shutil
import subprocess
import tempfile

import client
from counting import CALLGRIND, SECONDS, functions_of, total_of
from server import PROGRAM, SITE, Server

KINDS = {"MD5": "md5", "SHA-256": "sha256", "SHA-256-sess": "sha256"}
SMALL, LARGE, PUT = "/dir/index.html", "/large", "/put"
LARGE_BYTES, PUT_BYTES = 100_000, 1_000_000

# a request, and how many of it the two runs have
REQUESTS = (("GET", SMALL, b"", (20, 60)), ("GET", LARGE, b"", (2, 6)), ("PUT", PUT, b"x" * PUT_BYTES, (2, 6)))

# the parts of the program, by the functions' names. What a compiler put into its caller counts there.
PARTS = (
    ("hashing", r"^(sha2|md5|hex|auth_hash|digest_formulas)::"),
    ("reading", r"^(httparse|http_header|auth_grammar|digest_fields|base64|scram_text)::|^http_wire::(?!answer|text)"),
    ("deciding", r"^(auth_decide|request_deciding|cred_store|spaces_map)::"),
    ("table", r"^(nonce_shard|nonce_table|turn_table|count_window|atomic_table)::"),
    ("file", r"^(std::fs|origin_core|auth_io::adapters::files)"),
    ("writing", r"^(http_wire::(answer|text)|httpdate|itoa)"),
    ("memory", r"alloc|free|^_?_?mem(set|cpy|move)"),
)


class Digest:
    """The secrets and the credentials of one kind (RFC 7616 section 3.4)."""

    def __init__(self, kind):
        self.kind, self.name = kind, KINDS[kind]
        self.nonce, self.count = "", 0

    def hash(self, *texts):
        return hashlib.new(self.name, ":".join(texts).encode()).hexdigest()

    def secret(self):
        return self.hash(client.NAME, client.REALM, client.PASSWORD)

    def session_secret(self):
        secret = self.secret()
        return self.hash(secret, self.nonce, client.CNONCE) if self.kind.endswith("-sess") else secret

    def request(self, method, target, body):
        """The next request with the nonce."""
        self.count += 1
        count = f"{self.count:08x}"
        response = self.hash(
            self.session_secret(), self.nonce, count, client.CNONCE, "auth", self.hash(method, target)
        )
        length = f"Content-Length: {len(body)}\r\n" if method == "PUT" else ""
        return (
            f"{method} {target} HTTP/1.1\r\nHost: example.org\r\n{length}"
            f'Authorization: Digest username="{client.NAME}", realm="{client.REALM}", uri="{target}", '
            f'algorithm={self.kind}, nonce="{self.nonce}", nc={count}, cnonce="{client.CNONCE}", qop=auth, '
            f'response="{response}"\r\n\r\n'
        ).encode() + body


@contextlib.contextmanager
def site_of(digest):
    """A copy of the sample site that offers this kind, with a large file."""
    with tempfile.TemporaryDirectory() as folder:
        site = pathlib.Path(folder)
        shutil.copytree(SITE / "www", site / "www")
        (site / "www" / LARGE[1:]).write_bytes(b"x" * LARGE_BYTES)
        store_kind = digest.kind.removesuffix("-sess").lower()
        entry = f"{client.NAME}:{client.REALM}:{store_kind}:{digest.secret()}\n"
        (site / "store.txt").write_text(f"authstore 1\n{entry}")
        (site / "spaces.txt").write_text(f"authspaces 1\n/ required {digest.kind} {client.REALM}\n")
        yield site


def read_reply(stream):
    """The status of the next reply, which is read to its end, and its head."""
    head = client.read_head(stream)
    found = re.search(r"Content-Length: (\d+)", head)
    left = int(found.group(1)) if found else 0
    while left:
        left -= len(stream.read(min(left, 65536)))
    return head[9:12], head


def serve(digest, request, count, write, stream):
    """One request that is challenged, and so many that are admitted, each behind the reply to the last."""
    write(client.request())
    digest.nonce, digest.count = client.nonce_in(read_reply(stream)[1]), 0
    for _ in range(count):
        write(digest.request(*request))
        status, _ = read_reply(stream)
        if status not in ("200", "204"):
            raise OSError("a request isn't admitted")


def serve_by_pipe(digest, request, count, site, before):
    words = [*before, PROGRAM, "pipe", site / "store.txt", site / "spaces.txt", site / "www"]
    with subprocess.Popen(words, stdin=subprocess.PIPE, stdout=subprocess.PIPE, stderr=subprocess.DEVNULL) as program:
        def write(text):
            program.stdin.write(text)
            program.stdin.flush()

        serve(digest, request, count, write, program.stdout)
        program.stdin.close()
        program.wait(SECONDS)


def serve_by_listen(digest, request, count, site, before):
    with Server(1, 1, site, before) as server:
        with server.connect() as connection, connection.makefile("rb") as stream:
            serve(digest, request, count, connection.sendall, stream)
        server.totals()


WAYS = {"pipe": serve_by_pipe, "listen": serve_by_listen}


def costs(way, digest, request, counts):
    """The instructions of each function for one request."""
    runs = []
    with site_of(digest) as site:
        for count in counts:
            runs.append(functions_of(lambda before: WAYS[way](digest, request, count, site, before)))
    more = counts[1] - counts[0]
    return {name: (cost - runs[0].get(name, 0)) / more for name, cost in runs[1].items()}


def parts_of(functions):
    """What each part takes, in words."""
    left, said = dict(functions), []
    for part, names in PARTS:
        own = [name for name in left if re.search(names, name)]
        said.append(f"{part} {sum(left.pop(name) for name in own):.0f}")
    return ", ".join([*said, f"other {sum(left.values()):.0f}"])


def measure_requests():
    if not shutil.which(CALLGRIND[0]):
        return
    for way in WAYS:
        for kind in KINDS:
            for method, target, body, counts in REQUESTS:
                functions = costs(way, Digest(kind), (method, target, body), counts)
                print(f"{way:<7} {kind:<12} {method} {target:<16} {total_of(functions):>10.0f}  {parts_of(functions)}", flush=True)
