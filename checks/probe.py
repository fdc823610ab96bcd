"""Tells whether the installed curl answers a challenge of one Digest kind rightly, by RFC 7616 section 3.4 and hashlib.

It prints `right`, or why a check with this kind is skipped. Some curls know a kind's name and take another hash.

usage: probe.py KIND HASH
"""
import hashlib
import re
import socket
import subprocess
import sys
import threading

SECONDS = 20
NAME, REALM, PASSWORD, NONCE, TARGET = "Mufasa", "a realm", "Circle of Life", "abc", "/dir/index.html"


def read_head(stream):
    """The lines of a request, or none where the connection ended."""
    return b"".join(iter(stream.readline, b"\r\n")).decode() if stream.peek(1) else ""


def challenge(listener, kind, heads):
    """Challenges two requests of one connection, and keeps their heads."""
    fields = f'Digest realm="{REALM}", nonce="{NONCE}", algorithm={kind}, qop="auth"'
    reply = f"HTTP/1.1 401 Unauthorized\r\nWWW-Authenticate: {fields}\r\nContent-Length: 0\r\n\r\n"
    connection, _ = listener.accept()
    connection.settimeout(SECONDS)
    with connection, connection.makefile("rb") as stream:
        while len(heads) < 2 and (head := read_head(stream)):
            heads.append(head)
            connection.sendall(reply.encode())


def is_right(head, kind, hash_name):
    def digest(text):
        return hashlib.new(hash_name, text.encode()).hexdigest()

    told = {name: quoted or plain for name, quoted, plain in re.findall(r'(\w+)=(?:"([^"]*)"|([^",\s]*))', head)}
    secret = digest(f"{NAME}:{REALM}:{PASSWORD}")
    if kind.endswith("-sess"):
        secret = digest(f"{secret}:{NONCE}:{told['cnonce']}")
    action = digest(f"GET:{TARGET}")
    return told["response"] == digest(f"{secret}:{NONCE}:{told['nc']}:{told['cnonce']}:auth:{action}")


def main():
    kind, hash_name = sys.argv[1:]
    if hash_name not in hashlib.algorithms_available:
        return "python3 can't hash it"
    heads = []
    with socket.create_server(("127.0.0.1", 0)) as listener:
        listener.settimeout(SECONDS)
        server = threading.Thread(target=challenge, args=(listener, kind, heads), daemon=True)
        server.start()
        limits = ["--silent", "--max-time", str(SECONDS), "--noproxy", "*"]
        url = f"http://127.0.0.1:{listener.getsockname()[1]}{TARGET}"
        subprocess.run(["curl", *limits, "--digest", "--user", f"{NAME}:{PASSWORD}", url], check=False)
        server.join(SECONDS)
    if len(heads) < 2:
        return "curl doesn't answer it"
    return "right" if is_right(heads[1], kind, hash_name) else "curl takes another hash"


print(main())
