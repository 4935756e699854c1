"""Real clients over loopback, curl and Python's http.client, and the same behind nginx, with samples/nginx.conf, where the machine
has nginx. samples/bsp_office.service starts an office. Peers are idle, never read, speak TLS and send what is not read. `serve` and
`run` end where they cannot serve, with their statuses and lines on standard error."""
import http.client
import os
import re
import shutil
import socket
import subprocess
import time

import pytest

from support import program, wire
from support.callers import AGENT_TOKEN as AGENT, OFFICE, registered
from support.compare import expect, expect_end
from support.served import Office, free_port, token_file
from support.tree import SAMPLES, sample

SALE = SAMPLES / "sale.ret"
NOT_ALLOWED = '{"code":"N01"}'
ASKED = wire.message("GET", "/agents/12345675/stock", "x")


def serving(connections):
    """The program, serving so many connections, after a plan, a day, an agent and its stock on the first of them."""
    it = Office("--connections", connections, seconds=10)
    asked = {"plan": sample("plan.toml"), "day": '{"day":"2024-01-05"}', **dict(registered())}
    for path, body in asked.items():
        wanted = (200, "application/json", b'{"result":"done"}')
        expect(path, wanted, it.ask("POST", f"/office/{path}", OFFICE, body))
    it.close()
    return it


def curl(it, *words):
    """What curl prints, with CR taken out."""
    words = [word.replace("OFFICE", f"http://127.0.0.1:{it.port}") for word in words]
    asked = subprocess.run(["curl", "-sS", "--max-time", "10", *words], capture_output=True, text=True)
    return asked.stdout.replace("\r", "") + asked.stderr


def test_curl():
    it = serving(8)
    token = ["-H", f"Bsp-Token: {AGENT}"]
    form = "%{http_code} %{http_version} %{num_connects} %{content_type}\n"
    stock = '{"ranges":[{"first":"1300000000","last":"1300000099","used":0}]}'
    path = "OFFICE/agents/12345675/stock"
    expect("curl", f"{stock}200 1.1 1 application/json\n", curl(it, *token, "-w", form, path))
    expect("curl of HTTP/1.0", f"{stock}200 1.1 1 application/json\n", curl(it, "--http1.0", *token, "-w", form, path))
    closing = curl(it, "--http1.0", "-i", *token, path)
    expect("curl of HTTP/1.0, the head", True, "\nConnection: close\n\n" in closing)
    head = "HTTP/1.1 405 Method Not Allowed\nContent-Type: application/json\nContent-Length: 14\nAllow: GET\n\n"
    expect("curl -I", head, curl(it, "-I", *token, path))
    both = f"{stock}200 1.1 1 application/json\n{stock}200 1.1 0 application/json\n"
    expect("curl, two requests on one connection", both, curl(it, *token, "-w", form, path, path))
    results = '{"results":[{"n":1,"period":"24011","verdict":"accepted"}]}'
    words = ["-H", "Expect: 100-continue", "--data-binary", f"@{SALE}", "-i"]
    posted = curl(it, *token, *words, "OFFICE/agents/12345675/ret")
    expect("curl, Expect", ["HTTP/1.1 100 Continue", "HTTP/1.1 200 OK"], re.findall("^HTTP.*$", posted, re.MULTILINE))
    expect("curl, Expect, the reply", results, posted.splitlines()[-1])
    chunked = ["-H", "Transfer-Encoding: chunked", "--data-binary", f"@{SALE}", "-w", form]
    refused = curl(it, *token, *chunked, "OFFICE/agents/12345675/ret")
    expect("curl, chunked", '{"code":"T05"}501 1.1 1 application/json\n', refused)
    expect("curl: the end", (0, "bsp_office: 8 connections served\n"), it.ended())


def test_http_client():
    served = serving(3)
    peer = http.client.HTTPConnection("127.0.0.1", served.port, timeout=10)
    token = {"Bsp-Token": AGENT}
    sale = sample("sale.ret")
    for verdict in "accepted", "held":
        peer.request("POST", "/agents/12345675/ret", sale, token)
        results = b'{"results":[{"n":1,"period":"24011","verdict":"%s"}]}' % verdict.encode()
        expect("http.client: a sale", results, peer.getresponse().read())
    peer.request("HEAD", "/agents/12345675/periods/24011", headers=token)
    reply = peer.getresponse()
    expect("http.client: HEAD", (405, "14", b""), (reply.status, reply.getheader("Content-Length"), reply.read()))
    peer.request("GET", "/agents/12345675/periods/24011", headers=token)
    net = b'{"closed":false,"documents":1,"net":"225.00","period":"24011"}'
    expect("http.client: the period", net, peer.getresponse().read())
    peer.request("GET", "/agents/12345675/ret", headers=token)
    reply = peer.getresponse()
    expect("http.client: another method", (405, "POST"), (reply.status, reply.getheader("Allow")))
    expect("http.client: its code", b'{"code":"N03"}', reply.read())
    peer.request("GET", "/agents/12345675/stock", headers={**token, "Connection": "close"})
    reply = peer.getresponse()
    expect("http.client: close", (200, "close"), (reply.status, reply.getheader("Connection")))
    reply.read()
    with socket.create_connection(("127.0.0.1", served.port)) as raw:
        raw.settimeout(10)
        raw.sendall(ASKED * 50)
        raw.shutdown(socket.SHUT_WR)
        pieces = b"".join(iter(lambda: raw.recv(65536), b""))
    expect("50 requests in one piece", 50, pieces.count(NOT_ALLOWED.encode()))
    expect("http.client: the end", (0, "bsp_office: 3 connections served\n"), served.ended())


def wait_for(port):
    """A connection to the port, as soon as something listens there."""
    limit = time.monotonic() + 10
    while True:
        try:
            return socket.create_connection(("127.0.0.1", port), timeout=10)
        except ConnectionRefusedError:
            if time.monotonic() > limit:
                raise
            time.sleep(0.05)


@pytest.mark.skipif(shutil.which("nginx") is None, reason="no nginx is on the path")
def test_nginx():
    """Behind nginx: an idle client, one that sends half a request, and one that sends chunks: the office serves others beside them."""
    text = sample("nginx.conf").decode()
    it, port = serving(1000), free_port()
    text = text.replace("8081", str(port)).replace("8080", str(it.port))
    places = "pid nginx.pid; error_log error.log; "
    with open("nginx.conf", "w", encoding="utf-8") as file:
        file.write(places + text.replace("http {", "http { access_log off; client_body_temp_path b; proxy_temp_path p;"))
    words = ["nginx", "-p", os.getcwd(), "-c", "nginx.conf", "-e", "error.log", "-g", "daemon off;"]
    proxy = subprocess.Popen(words)
    idle, half = wait_for(port), wait_for(port)
    half.sendall(b"POST /agents/12345675/ret HTTP/1.1\r\nHost: bsp\r\nContent-Length: 685\r\n\r\n1")
    at, token = f"http://127.0.0.1:{port}/agents/12345675", ["-H", f"Bsp-Token: {AGENT}"]
    stock = '{"ranges":[{"first":"1300000000","last":"1300000099","used":0}]}'
    expect("behind nginx: two requests", stock * 2, curl(it, *token, f"{at}/stock", f"{at}/stock"))
    sent = curl(it, *token, "-H", "Transfer-Encoding: chunked", "--data-binary", f"@{SALE}", f"{at}/ret")
    expect("behind nginx: chunks", '{"results":[{"n":1,"period":"24011","verdict":"accepted"}]}', sent)
    head = curl(it, "-I", *token, f"{at}/periods/24011")
    expect("behind nginx: HEAD", True, head.startswith("HTTP/1.1 405 Method Not Allowed\n") and "\nAllow: GET\n" in head)
    expect("behind nginx: none", '{"code":"N02"}', curl(it, f"http://127.0.0.1:{port}/x"))
    with open("long", "wb") as file:
        file.write(b"1" * 5_000_000)
    long = curl(it, *token, "-H", "Expect:", "-w", "%{http_code}", "--data-binary", "@long", f"{at}/ret")
    expect("behind nginx: a body that is too long", '{"code":"T03"}413', long)
    expect("behind nginx: a field of 8 KB", stock.replace("0}", "1}"), curl(it, *token, "-H", f"X: {'x' * 8192}", f"{at}/stock"))
    large = curl(it, *token, "-H", f"X: {'x' * 20_000}", "-w", "%{http_code}", f"{at}/stock")
    expect("behind nginx: a head that is too long", '{"code":"T04"}431', large)
    expect("behind nginx: no Host", '{"code":"T01"}400', curl(it, "-H", "Host:", "-w", "%{http_code}", f"{at}/stock"))
    it.stop()
    ended = curl(it, "-i", *token, f"{at}/stock")
    expect(
        "behind nginx: no office",
        (True, "5", '{"code":"B01"}'),
        (ended.startswith("HTTP/1.1 503 "), *re.findall("^Retry-After: (.*)$", ended, re.MULTILINE), ended.splitlines()[-1]),
    )
    idle.close()
    half.close()
    proxy.terminate()
    proxy.wait(10)


def test_the_words_of_the_service():
    """The words of samples/bsp_office.service start the office; systemd reads the file, where the machine has it."""
    unit = sample("bsp_office.service").decode()
    path, *words = re.search("^ExecStart=(.*)$", unit, re.MULTILINE)[1].split()
    names = {"/etc/bsp_office.token": "service.token", "/var/lib/bsp_office/office.db": "service.db"}
    words = [names.get(word, word) for word in words]
    token_file("service.token", f"{OFFICE}\n")
    with Office("--db", "service.db", token_file="service.token") as it:
        expect("as a service: the words", words, ["serve", "--port", "8080", *it.words[3:]])
        expect("as a service: it answers", 200, it.ask("POST", "/office/day", OFFICE, '{"day":"2024-01-05"}')[0])
    if shutil.which("systemd-analyze"):
        with open("bsp_office.service", "w", encoding="utf-8") as file:
            file.write(unit.replace(path, program.path()))
        expect_end("as a service: systemd", (0, b"", b""), ["systemd-analyze", "verify", "--man=no", "./bsp_office.service"])


SECONDS = 1


def never_read(peer):
    """Asks for more than the buffers of the two sockets hold, and reads nothing."""
    peer.setsockopt(socket.SOL_SOCKET, socket.SO_RCVBUF, 4096)
    peer.settimeout(SECONDS / 2)
    try:
        peer.sendall(ASKED * 65_535)
    except OSError:
        pass


@pytest.mark.alone
def test_two_clients_that_ask_in_turn():
    """Two clients that keep their connections, and ask in turn: the one is idle while the other waits."""
    it = Office("--timeout", SECONDS, seconds=30)
    with it:
        for number in range(2):
            for peer in [http.client.HTTPConnection("127.0.0.1", it.port, timeout=10) for _ in range(2)]:
                peer.request("GET", "/agents/12345675/stock", headers={"Bsp-Token": "x"})
                expect(f"two clients, turn {number}", 403, peer.getresponse().status)


HOLDING = {
    "an idle peer": lambda peer: None,
    "half a head": lambda peer: peer.sendall(b"GET /agents"),
    "half a body": lambda peer: peer.sendall(b"POST /office/day HTTP/1.1\r\nHost: a\r\nContent-Length: 9\r\n\r\n{"),
    "a TLS hello": lambda peer: peer.sendall(bytes.fromhex("16030100c8010000c40303") + bytes(194)),
    "a peer that never reads": never_read,
}


@pytest.mark.alone
@pytest.mark.parametrize("what", HOLDING)
def test_a_peer_holds_up_another_for_the_timeout_at_most(what):
    with Office("--timeout", SECONDS, seconds=30) as it, socket.create_connection(("127.0.0.1", it.port)) as peer:
        HOLDING[what](peer)
        begun = time.monotonic()
        expect("another is answered", 403, it.ask("GET", "/agents/12345675/stock", "x")[0])
        expect("in time", True, time.monotonic() - begun < SECONDS + 0.5)


@pytest.mark.alone
def test_early_replies_arrive_each_time():
    """A reply that comes before the request was read whole arrives, each time."""
    it = Office("--timeout", 10, seconds=30)
    asked = {
        413: {"body": b"1" * 5_000_000},
        501: {"headers": {"Transfer-Encoding": "chunked"}, "encode_chunked": True},
        431: {"headers": {"X": "1" * 20_000}},
    }
    with it:
        for status, words in asked.items():
            for number in range(20):
                if status == 501:
                    words["body"] = (b"1" * 65_536 for _ in range(16))
                peer = http.client.HTTPConnection("127.0.0.1", it.port, timeout=10)
                try:
                    peer.request("POST", "/office/plan", **words)
                    found = peer.getresponse().status
                except OSError as fault:
                    found = repr(fault)
                expect(f"{status}, request {number}", status, found)
                peer.close()


def taken(peer, end):
    """What the peer gets up to this end."""
    text = b""
    while not text.endswith(end):
        piece = peer.recv(4096)
        if not piece:
            break
        text += piece
    return text


def test_replies_are_sent_before_the_office_waits_for_a_body():
    """What was answered is sent before the office waits for a body: an interim reply, and the reply to the message before."""
    it = Office("--timeout", 10, seconds=30)
    head = f"POST /office/day HTTP/1.1\r\nHost: a\r\nBsp-Token: {OFFICE}\r\nContent-Length: 20\r\n"
    with it, socket.create_connection(("127.0.0.1", it.port), timeout=5) as peer:
        peer.sendall(f"{head}Expect: 100-continue\r\n\r\n".encode())
        expect("Expect: the interim reply", b"HTTP/1.1 100 Continue\r\n\r\n", taken(peer, b"\r\n\r\n"))
        peer.sendall(b'{"day":"2024-01-05"}')
        expect("Expect: the reply", True, taken(peer, b"}").endswith(b'{"result":"done"}'))
        peer.sendall(ASKED + f"{head}\r\n".encode())
        expect("the reply to the message before", True, taken(peer, b"}").endswith(NOT_ALLOWED.encode()))
        peer.sendall(b'{"day":"2024-01-05"}')
        expect("the reply to the body", True, taken(peer, b"}").endswith(b'{"result":"held"}'))


def test_the_log():
    """With --log each reply has a line: the connection, the method, the path, the status, the code, the bytes of the body and
    microseconds."""
    it = Office("--log", "--connections", 3, seconds=10)
    expect("logged: a day", 200, it.ask("POST", "/office/day", OFFICE, '{"day":"2024-01-05"}')[0])
    expect("logged: no route", 404, it.ask("GET", "/x?token=1")[0])
    it.close()
    for text in b"GET /a\xc3\xa9\\ HTTP/1.0\r\n\r\n", b"GET\r\n\r\n":
        with socket.create_connection(("127.0.0.1", it.port), timeout=10) as raw:
            raw.sendall(text)
            expect("logged: it is answered", True, raw.recv(12).startswith(b"HTTP/1.1 4"))
    lines = [
        "1 POST /office/day 200 - 17 T",
        "1 GET /x 404 N02 14 T",
        "2 GET /a\\xc3\\xa9\\ 404 N02 14 T",
        "3 - - 400 T01 14 T",
        "3 connections served",
    ]
    status, said = it.ended()
    said = re.sub(r" \d+$", " T", said, flags=re.MULTILINE)
    expect("logged: the lines", (0, "".join(f"bsp_office: {line}\n" for line in lines)), (status, said))


def cannot_serve(what, status, error, *words, text=b""):
    """Runs the program where it cannot serve. `error` is a pattern of what it prints on standard error."""
    ended = subprocess.run([program.path(), *words], input=text, capture_output=True, timeout=10)
    expect(f"{what}: status", status, ended.returncode)
    expect(f"{what}: standard output", b"", ended.stdout)
    told = ended.stderr.decode()
    expect(f"{what}: {error!r} in {told!r}", True, re.fullmatch(error, told) is not None)


def test_a_port_in_use():
    """A wrong token and a book that is none are said before it."""
    with socket.socket() as other:
        other.bind(("127.0.0.1", 0))
        other.listen()
        port = str(other.getsockname()[1])
        words = ["serve", "--port", port, "--token"]
        cannot_serve("a port in use", 3, f"bsp_office: port {port} is in use\n", *words, OFFICE)
        cannot_serve("a wrong token before the port", 2, "error: .*\n", *words, "short")
        cannot_serve("a book before the port", 3, "bsp_office: .: B03 .*: it is a directory\n", *words, OFFICE, "--db", ".")


@pytest.mark.parametrize("file", ["missing", "."])
def test_a_token_file_that_cannot_be_read(file):
    cannot_serve(file, 3, f"bsp_office: {file}: .*\n", "run", "--token-file", file)


@pytest.mark.parametrize(
    "text", ["short\n", "", f"{OFFICE} \n", f"\n{OFFICE}\n", f"{OFFICE}\n" * 1000], ids=lambda it: repr(it[:20])
)
def test_a_token_file_without_a_token(text):
    token_file("token", text)
    cannot_serve("the token file", 2, "bsp_office: token: its first line .*\n", "run", "--token-file", "token")


def test_run_on_standard_input():
    reply = wire.FORBIDDEN
    for end in "", "\n", "\r\n", "\nmore\n":
        token_file("token", OFFICE + end)
        expect_end(
            f"run, the token file ends by {end!r}", (0, reply, b""), [program.path(), "run", "--token-file", "token"], input=ASKED
        )
    for length in range(len(ASKED)):
        expect_end(f"run of {length} bytes", (0, b"", b""), [program.path(), "run", "--token", OFFICE], input=ASKED[:length])
    with open("/dev/full", "wb") as full:
        ended = subprocess.run([program.path(), "run", "--token", OFFICE], input=ASKED, stdout=full, timeout=10)
    expect("run, standard output full", 3, ended.returncode)


def test_run_twice():
    """The office of `run` has the token of the words; its book ends with it, or is in the file of --db."""
    plan = sample("plan.toml")
    head = f"POST /office/plan HTTP/1.1\r\nHost: bsp\r\nBsp-Token: {OFFICE}\r\nContent-Length: {len(plan)}\r\n\r\n"
    reply = 'HTTP/1.1 200 OK\r\nContent-Type: application/json\r\nContent-Length: 17\r\n\r\n{"result":"%s"}'
    token_file("token", f"{OFFICE}\n")
    memory = ["--token", OFFICE], [f"--token={OFFICE}"], ["--token-file", "token"]
    for words, second in *((words, "done") for words in memory), (["--token", OFFICE, "--db", "office.db"], "held"):
        before = os.listdir()
        for result in "done", second:
            day = (
                "new book"
                if result == "done"
                else "day 2000-01-01, 0 of 2 periods closed, 0 agents, 0 airlines, 0 items, 0 memos"
            )
            wanted = (0, (reply % result).encode(), f"bsp_office: office.db: {day}\n".encode() if "--db" in words else b"")
            expect_end(f"run {words}: a plan", wanted, [program.path(), "run", *words], input=head.encode() + plan)
        made = {"office.db", "office.db-wal"} if "--db" in words else set()
        expect(f"run {words}: files that it made", made, set(os.listdir()) - set(before))
