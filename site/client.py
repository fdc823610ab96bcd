"""A client of the site beside this file, by Digest with SHA-256 (RFC 7616)."""
import hashlib
import re

NAME, REALM, PASSWORD = "Mufasa", "http-auth@example.org", "Circle of Life"
TARGET, CNONCE = "/dir/index.html", "0a4f113b"


def sha256(text):
    return hashlib.sha256(text.encode()).hexdigest()


def request(line="", method="GET", target=TARGET):
    """The head of a request, with one more line."""
    return f"{method} {target} HTTP/1.1\r\nHost: example.org\r\n{line}\r\n".encode()


def credentials(nonce, count, method="GET", target=TARGET):
    """The line of a request that answers the nonce, with the response of RFC 7616 section 3.4.1."""
    secret = sha256(f"{NAME}:{REALM}:{PASSWORD}")
    action = sha256(f"{method}:{target}")
    response = sha256(f"{secret}:{nonce}:{count:08x}:{CNONCE}:auth:{action}")
    return (
        f'Authorization: Digest username="{NAME}", realm="{REALM}", uri="{target}", algorithm=SHA-256, '
        f'nonce="{nonce}", nc={count:08x}, cnonce="{CNONCE}", qop=auth, response="{response}"\r\n'
    )


def read_head(stream):
    """The head of a reply, with the empty line behind it."""
    head = b""
    while not head.endswith(b"\r\n\r\n"):
        byte = stream.read(1)
        if not byte:
            raise OSError("the program ended inside a reply")
        head += byte
    return head.decode()


def read_reply(stream):
    """The head and the body of a reply."""
    head = read_head(stream)
    return head, stream.read(int(re.search(r"Content-Length: (\d+)", head).group(1))).decode()


def nonce_in(head):
    """The nonce of a challenge, or an empty one where there is none."""
    found = re.search(r'nonce="([^"]*)"', head)
    return found.group(1) if found else ""
