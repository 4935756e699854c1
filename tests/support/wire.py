"""HTTP as it is sent on a connection."""
import contextlib
import re
import socket


def message(method, path, token, body=""):
    """A request as it is sent. A POST has its length."""
    body = body.encode() if isinstance(body, str) else body
    token = f"Bsp-Token: {token}\r\n" if token else ""
    length = f"Content-Length: {len(body)}\r\n" if method == "POST" else ""
    return f"{method} {path} HTTP/1.1\r\nHost: bsp\r\n{token}{length}\r\n".encode() + body


def response(status, text, *fields, media="application/json", bare=False):
    """A response with this text. Bare: it has the length of the text, and leaves the text out."""
    lines = [f"HTTP/1.1 {status}", f"Content-Type: {media}", f"Content-Length: {len(text)}", *fields, "", ""]
    return "\r\n".join(lines).encode() + (b"" if bare else text.encode())


FORBIDDEN = response("403 Forbidden", '{"code":"N01"}')
CLOSE, INTERIM = "Connection: close", b"HTTP/1.1 100 Continue\r\n\r\n"


def replies(out):
    """The replies in an output, each with its head."""
    found = []
    while out:
        head, end, _ = out.partition(b"\r\n\r\n")
        length = re.search(rb"Content-Length: (\d+)", head)
        if not end or not length:
            return found + [out]
        at = len(head) + 4 + int(length[1])
        found.append(out[:at])
        out = out[at:]
    return found


def next_reply(came):
    """The next reply in a file of what comes on a connection: its status, its fields and its body."""
    status = came.readline().split()
    if len(status) < 2:
        raise ConnectionError(f"no reply, but {status}")
    fields = {}
    while line := came.readline().decode().rstrip("\r\n"):
        name, _, value = line.partition(": ")
        fields[name] = value
    return int(status[1]), fields, came.read(int(fields["Content-Length"]))


def connected(port, seconds=10, room=None):
    """A connection to loopback, whose receive buffer has so much room."""
    peer = socket.socket()
    if room:
        peer.setsockopt(socket.SOL_SOCKET, socket.SO_RCVBUF, room)
    peer.settimeout(seconds)
    peer.connect(("127.0.0.1", port))
    return peer


def reply_on(peer):
    """The next reply on a connection that sends no other before it is asked; what came, where it ends before."""
    found = b""
    while piece := peer.recv(65536):
        found += piece
        head, end, body = found.partition(b"\r\n\r\n")
        length = re.search(rb"Content-Length: (\d+)", head)
        if end and length and len(body) >= int(length[1]):
            break
    return found


def asks(peer, sent):
    """What comes to the peer for these bytes; what failed, where it fails."""
    try:
        peer.sendall(sent)
        return reply_on(peer)
    except OSError as fault:
        return repr(fault)


def all_on(peer):
    """What comes up to the end of a connection, or up to a reset."""
    found = b""
    with contextlib.suppress(ConnectionResetError):
        while piece := peer.recv(65536):
            found += piece
    return found


def curl(request, body=b"", token="TOKEN"):
    """A request as a command that can be pasted: of curl, to the office at $BASE."""
    method, _, path = request.partition(" ")
    text = body.decode("latin-1").translate({ord("\\"): "\\\\", ord("'"): "\\'", ord("\n"): "\\n", ord("\r"): "\\r"})
    text = "".join(it if " " <= it <= "~" else f"\\x{ord(it):02x}" for it in text)
    token = f"-H 'Bsp-Token: {token}' " if token else ""
    return f"curl -X {method} {token}" + (f"--data-binary $'{text}' " if body else "") + f'"$BASE{path}"'
