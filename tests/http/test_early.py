"""A reply that comes before the request was read arrives: 400, 411, 413 with a body of 20 MB, 431, and 501 with chunks of 20 MB.
Python's http.client, a raw socket, curl, `requests` and node, the last three where the machine has them, ask 20 times each; each of
the 20 has the reply, whole. One that goes on sending for longer than the timeout is cut off. Each test prints how long it took."""
import http.client
import json
import random
import shutil
import socket
import subprocess
import time

import pytest

from support.compare import expect
from support.served import Office

try:
    import requests
except ImportError:
    requests = None

pytestmark = pytest.mark.alone
TIMES, SECONDS, LONG, CHUNK = 20, 10, 20_000_000, 65_536
PHRASES = {
    400: "Bad Request",
    411: "Length Required",
    413: "Payload Too Large",
    431: "Request Header Fields Too Large",
    501: "Not Implemented",
}
CODES = {400: "T01", 411: "T02", 413: "T03", 431: "T04", 501: "T05"}
BODY = random.Random(1).randbytes(LONG)
PATH = "/office/plan"
# the fields that are refused, by the status; of 413 and 501 a body or chunks follow
FIELDS = {
    400: {"Content-Length": "5x"},
    411: {},
    413: {"Content-Length": str(LONG)},
    431: {"X": "x" * 20_000},
    501: {"Transfer-Encoding": "chunked"},
}


def text_of(status):
    return b'{"code":"%s"}' % CODES[status].encode()


def chunks():
    """The body in chunks, with their frames."""
    for at in range(0, LONG, CHUNK):
        piece = BODY[at : at + CHUNK]
        yield b"%x\r\n%s\r\n" % (len(piece), piece)
    yield b"0\r\n\r\n"


def with_http_client(port, status):
    peer = http.client.HTTPConnection("127.0.0.1", port, timeout=SECONDS)
    peer.putrequest("POST", PATH)
    for name, value in FIELDS[status].items():
        peer.putheader(name, value)
    if status == 431:
        peer.putheader("Content-Length", "0")
    peer.endheaders()
    if status == 413:
        peer.send(BODY)
    if status == 501:
        for piece in chunks():
            peer.send(piece)
    reply = peer.getresponse()
    found = reply.status, reply.read()
    peer.close()
    return found


def with_socket(port, status):
    """Reads to the end: the reply is the whole of it."""
    fields = "".join(f"{name}: {value}\r\n" for name, value in FIELDS[status].items())
    with socket.create_connection(("127.0.0.1", port), timeout=SECONDS) as peer:
        peer.sendall(f"POST {PATH} HTTP/1.1\r\nHost: bsp\r\n{fields}\r\n".encode())
        if status == 413:
            peer.sendall(BODY)
        if status == 501:
            for piece in chunks():
                peer.sendall(piece)
        found = b""
        while piece := peer.recv(CHUNK):
            found += piece
    head = f"HTTP/1.1 {status} {PHRASES[status]}\r\nContent-Type: application/json\r\nContent-Length: 14\r\nConnection: close\r\n\r\n"
    return (status, text_of(status)) if found == head.encode() + text_of(status) else (found, b"")


def with_curl(port, status):
    words = [
        word
        for name, value in FIELDS[status].items()
        if name != "Content-Length" or status == 400
        for word in ("-H", f"{name}: {value}")
    ]
    sent = {413: ["-T", "long"], 501: ["-T", "long"], 431: ["-d", ""]}.get(status, [])
    words = [
        "curl",
        "-sS",
        "--max-time",
        str(SECONDS),
        "-X",
        "POST",
        "-H",
        "Expect:",
        *words,
        *sent,
        "-w",
        "\n%{http_code}",
        f"http://127.0.0.1:{port}{PATH}",
    ]
    ended = subprocess.run(words, capture_output=True, timeout=2 * SECONDS)
    text, _, code = ended.stdout.rpartition(b"\n")
    return (int(code), text) if code.isdigit() and ended.returncode == 0 else (ended.returncode, ended.stderr)


def with_requests(port, status):
    body = {413: BODY, 501: (BODY[at : at + CHUNK] for at in range(0, LONG, CHUNK))}.get(status)
    with requests.Session() as session:
        asked = session.prepare_request(requests.Request("POST", f"http://127.0.0.1:{port}{PATH}", data=body))
        if status == 411:
            del asked.headers["Content-Length"]
        if status in (400, 431):
            asked.headers.update(FIELDS[status])
        reply = session.send(asked, timeout=SECONDS)
    return reply.status_code, reply.content


# sends the head of a POST and then the file, with its length or in chunks, and prints the status and the text
NODE = """
const [port, path, file, fields] = process.argv.slice(1);
const request = require("http").request({host: "127.0.0.1", port, path, method: "POST", headers: JSON.parse(fields)}, reply => {
  let text = "";
  reply.on("data", piece => text += piece);
  reply.on("end", () => { console.log(reply.statusCode + " " + text); process.exit(0); });
});
request.on("error", fault => setTimeout(() => { console.log(fault.message); process.exit(1); }, 1000));
file ? require("fs").createReadStream(file).pipe(request) : request.end();
"""


def with_node(port, status):
    fields = {name: value for name, value in FIELDS[status].items() if name != "Transfer-Encoding"}
    ended = subprocess.run(
        ["node", "-e", NODE, str(port), PATH, "long" if status in (413, 501) else "", json.dumps(fields)],
        capture_output=True,
        timeout=2 * SECONDS,
    )
    code, _, text = ended.stdout.strip().partition(b" ")
    return (int(code), text) if code.isdigit() else (ended.returncode, ended.stdout + ended.stderr)


CLIENTS = {
    "http.client": (with_http_client, True),
    "socket": (with_socket, True),
    "curl": (with_curl, shutil.which("curl")),
    "requests": (with_requests, requests),
    "node": (with_node, shutil.which("node")),
}
# `requests` and node send a length with each POST, and node none that is no number
NOT_SENT = [("requests", 411), ("node", 411), ("node", 400)]
ASKED = [(name, status) for name in CLIENTS for status in FIELDS if (name, status) not in NOT_SENT]


@pytest.mark.parametrize("name, status", ASKED)
def test_an_early_reply_arrives(name, status, office):
    client, is_there = CLIENTS[name]
    if not is_there:
        pytest.skip(f"no {name} is there")
    with open("long", "wb") as file:
        file.write(BODY)
    it, begun = office("--timeout", SECONDS), time.monotonic()
    for number in range(TIMES):
        try:
            found = client(it.port, status)
        except (OSError, http.client.HTTPException, subprocess.TimeoutExpired) as fault:
            found = repr(fault), b""
        expect(f"{name}, {status}, request {number}", (status, text_of(status)), found)
    print(f"{name}, {status}: {time.monotonic() - begun:.1f} seconds")


def test_a_peer_that_sends_without_end_is_cut_off():
    """Once the timeout is over, and not before."""
    seconds = 2
    with Office("--timeout", seconds) as it, socket.create_connection(("127.0.0.1", it.port), timeout=SECONDS) as peer:
        peer.sendall(f"POST {PATH} HTTP/1.1\r\nHost: bsp\r\nTransfer-Encoding: chunked\r\n\r\n".encode())
        begun = time.monotonic()
        try:
            while time.monotonic() < begun + seconds + 5:
                peer.sendall(b"1000\r\n" + bytes(4096) + b"\r\n")
                time.sleep(0.02)
        except OSError:
            pass
        lasted = time.monotonic() - begun
    print(f"cut off after {lasted:.1f} seconds, {seconds} wanted")
    expect("not before", True, lasted > seconds - 0.1)
    expect("by then", True, lasted < seconds + 4)
