"""Which head of a request gets which reply, and how the connection goes on: whether it closes, which bytes are read, and whether the
next message is answered. Heads and bodies come at once, in pieces or cut, and reads fail or are interrupted, by the shim steps.c in
front of the C library; refuse.c refuses memory for a body."""
import concurrent.futures
import contextlib
import os
import socket
import struct
import subprocess
import tempfile

import pytest

from support import program, shims, wire
from support.callers import OFFICE
from support.compare import expect
from support.served import Office
from support.tree import sample
from support.wire import CLOSE, FORBIDDEN, INTERIM, response

# the most bytes and the most fields of a head, the most bytes of a body, and the most messages of a connection
MOST, FIELDS, BODY, MESSAGES = 16_384, 64, 4_194_304, 65_536
STATUSES = {
    "N01": "403 Forbidden",
    "N02": "404 Not Found",
    "N03": "405 Method Not Allowed",
    "N04": "400 Bad Request",
    "N05": "409 Conflict",
    "S01": "409 Conflict",
    "B01": "503 Service Unavailable",
    "T01": "400 Bad Request",
    "T02": "411 Length Required",
    "T03": "413 Payload Too Large",
    "T04": "431 Request Header Fields Too Large",
    "T05": "501 Not Implemented",
}


# ---- messages and responses


def head(asked, *fields):
    """A head of HTTP/1.1, where what is asked does not name another version."""
    return "\r\n".join([asked if " HTTP/" in asked else f"{asked} HTTP/1.1", *fields, "", ""]).encode()


def post(path, body, *fields, token=f"Bsp-Token: {OFFICE}"):
    return head(f"POST {path}", "Host: a", token, *fields, f"Content-Length: {len(body)}") + body


def refusal(code, *fields, record=None, bare=False):
    text = f'{{"code":"{code}"}}' if record is None else f'{{"code":"{code}","record":{record}}}'
    return response(STATUSES.get(code, "422 Unprocessable Entity"), text, *fields, bare=bare)


GET, HEAD, POST, OLD_GET, OLD_POST = "GET /x", "HEAD /x", "POST /x", "GET /x HTTP/1.0", "POST /x HTTP/1.0"
HOST, EXPECT, CHUNKED = "Host: a", "Expect: 100-continue", "Transfer-Encoding: chunked"
NONE, FIVE, LONGER, WRONG = (f"Content-Length: {it}" for it in (0, 5, BODY + 1, "x"))
DONE, HELD = (response("200 OK", f'{{"result":"{it}"}}') for it in ("done", "held"))
NO_ROUTE, CLOSING, MALFORMED = refusal("N02"), refusal("N02", CLOSE), refusal("T01", CLOSE)
BARE, NO_ROOM = refusal("N02", bare=True), refusal("B01", CLOSE)
DAY, SALE, PLAIN = b'{"day":"2024-01-05"}', sample("sale.ret"), head(GET, HOST)


# ---- the cases

# the message that comes after each other one, and the response to it
NEXT, NEXT_REPLY = head("GET /office/settlement/24011", HOST), FORBIDDEN

# texts without the end of a head: no reply; and texts that are no head of a request: 400 T01, always with its text
NO_END = [b"", b"\r\n\r\n\n\n", b"GET /x HTTP/1.1\r\nHost: a\r\n", b"GET /x HTTP/1.1\r\nHost: a\r\n\r"]
NO_HEADS = [
    head("GET /x HTTP/2.0", HOST),
    head("GET  /x", HOST),
    head(GET, "Host : a"),
    head(HEAD, "Host : a"),
    b"GET /x\r\nHost: a\r\n\r\n",
    b"no head\r\n\r\n",
    head(" /x", HOST),
    head("GET /office/settlement/ 24011", HOST),
    head("GET /agents/\x7f/stock", HOST),
    b"GET /\xff HTTP/1.1\r\nHost: a\r\n\r\n",
]

# values of Host: those that are no host, and those that are one, with a port or without
NO_HOSTS = [
    "a b",
    "a\tb",
    "a@b",
    "u:p@a",
    "a/b",
    "a/",
    "http://a",
    "a?b",
    "a#b",
    "a\\b",
    '"a"',
    "a|b",
    "M\xfcller",
    "a:b",
    "a:80x",
    "a:-1",
    "a:1:2",
    "a::1",
    "::1",
    "%",
    "a%",
    "%4",
    "%4g",
    "%g4",
    "%%41",
    "[",
    "[]",
    "[]:80",
    "[::1",
    "::1]",
    "[::1]80",
    "[::1]:x",
    "a[::1]",
    "[g::1]",
    "[:]",
    "[:::]",
    "[1::2::3]",
    "[12345::]",
    "[1:2:3:4:5:6:7]",
    "[1:2:3:4:5:6:7:8:9]",
    "[1::3:4:5:6:7:8:9]",
    "[10.0.0.5]",
    "[::10.0.0]",
    "[::10.0.0.256]",
    "[::1%251]",
    "[[::1]]",
    "[v]",
    "[v1]",
    "[v1.]",
    "[v.a]",
    "[vg.a]",
    "[v1.a@b]",
    "[w1.a]",
]
HOSTS = [
    "",
    "bsp",
    "BSP.example:",
    "bsp:8080",
    ":80",
    ":",
    "10.0.0.5:65536",
    "a_b",
    "a%20b",
    "%C3%bc:1",
    "-._~!$&'()*+,;=",
    "0:0",
    "\t bsp \t",
    "[::1]",
    "[::]:",
    "[1:2:3:4:5:6:7:8]",
    "[1:2:3:4:5:6:10.0.0.5]",
    "[1:2:3:4:5:6:7::]",
    "[2001:DB8::a]:443",
    "[::ffff:10.0.0.5]",
    "[v1F.a:~]:1",
    "[VA.(:)]",
]

# heads that are refused, after the code, the last ones for the first of several faults: to a HEAD without the text
REFUSED = [
    ("T01", GET),
    ("T01", HEAD),
    ("T01", GET, HOST, "host: a"),
    ("T01", HEAD, HOST, HOST),
    ("T01", OLD_GET, HOST, "Host: b"),
    *(("T01", GET, f"Host: {it}") for it in NO_HOSTS),
    ("T01", OLD_GET, "Host: a b"),
    ("T01", HEAD, "Host: a@b"),
    ("T01", OLD_POST, HOST, HOST, CHUNKED),
    ("T01", POST, "Host: a b", CHUNKED),
    ("T01", POST, "Host: a b", LONGER),
    ("T01", POST, HOST, "Content-Length:"),
    ("T01", POST, HOST, "Content-Length: +5"),
    ("T01", POST, HOST, "Content-Length: 5, 5"),
    ("T01", POST, HOST, WRONG),
    ("T01", POST, HOST, FIVE, FIVE),
    ("T02", POST, HOST),
    ("T02", "POST /office/day", HOST),
    ("T02", OLD_POST),
    ("T03", POST, HOST, LONGER),
    ("T03", GET, HOST, f"Content-Length: {'9' * 26}"),
    ("T05", POST, HOST, CHUNKED),
    ("T05", HEAD, HOST, CHUNKED),
    ("T05", POST, HOST, "Transfer-Encoding: gzip"),
    ("T01", POST),
    ("T01", POST, CHUNKED),
    ("T01", POST, LONGER),
    ("T01", POST, HOST, LONGER, FIVE),
    ("T01", POST, HOST, FIVE, LONGER),
    ("T01", POST, HOST, f"{LONGER}x"),
    ("T05", OLD_POST, CHUNKED, WRONG),
    ("T05", POST, HOST, CHUNKED, LONGER),
    ("T05", POST, LONGER, CHUNKED, HOST),
    ("T05", POST, HOST, CHUNKED, WRONG),
    ("T05", POST, WRONG, CHUNKED, HOST),
    ("T05", POST, FIVE, "Content-Length: 6", "Transfer-Encoding:", HOST),
]

# messages, and what is written for them: where heads end, methods and targets, what closes the connection, lengths and
# what a sender waits for, tokens, other statuses, and a reply that is plain text
ANSWERED = [
    (PLAIN, NO_ROUTE),
    (PLAIN + b"\r\n", NO_ROUTE),
    (b"\r\n\nGET /x HTTP/1.1\nhOST: a\n\n", NO_ROUTE),
    (b"\r\n\nGET /x HTTP/1.1\nHost: a\r\n\n", NO_ROUTE),
    (b"GET /x HTTP/1.1\nHost: a\n\nbody\n\n", NO_ROUTE + MALFORMED),
    *((text, MALFORMED) for text in (b"a\n\r\r\n\n", b"a\n \n\r\n", b"\r\r\n\n")),
    (head(HEAD, HOST), BARE),
    (head("head /x", HOST), NO_ROUTE),
    (head("PUT /office/day?b", HOST), NO_ROUTE),
    *((head(f"GET {it}", HOST), NO_ROUTE) for it in ("*", "office/plan", "http://bsp/office/plan", "/agents/M\xfcller/stock")),
    *(
        (head(asked, HOST), refusal("N03", f"Allow: {methods}"))
        for asked, methods in (
            ("get /office/settlement/24011", "GET"),
            ("PUT /office/day", "POST"),
            ("DELETE /airlines/125/memos", "GET, POST"),
        )
    ),
    *(
        (head(f"HEAD {path}", HOST, CLOSE), refusal("N03", f"Allow: {methods}", CLOSE, bare=True))
        for path, methods in (("/office/settlement/24011", "GET"), ("/office/day", "POST"), ("/airlines/125/memos", "GET, POST"))
    ),
    *((head(GET, f"Host: {it}"), NO_ROUTE) for it in HOSTS),
    (head(OLD_GET, "Host: [::1]:80"), CLOSING),
    (head(OLD_GET), CLOSING),
    (head(OLD_GET, HOST, "Connection: keep-alive"), CLOSING),
    (head(GET, HOST, CLOSE), CLOSING),
    (head(GET, HOST, "CONNECTION: keep-alive ,\tCLOSE "), CLOSING),
    (head(GET, HOST, "Connection: x", "Connection: ,close,"), CLOSING),
    (head(GET, HOST, "Keep: close"), NO_ROUTE),
    (head(GET, HOST, "Connection: closed, clos, close x"), NO_ROUTE),
    (post("/office/day", DAY, CLOSE), response("200 OK", '{"result":"done"}', CLOSE)),
    (head(POST, HOST, NONE), NO_ROUTE),
    (head(POST, HOST, FIVE) + b"12345", NO_ROUTE),
    (head("PUT /x", HOST), NO_ROUTE),
    (head(GET, HOST, f"content-length: {5:026}") + b"12345", NO_ROUTE),
    (head(OLD_POST, FIVE, EXPECT) + b"12345", CLOSING),
    (head(POST, HOST, NONE, EXPECT), NO_ROUTE),
    (post("/office/day", DAY, "expect: x", "EXPECT: 100-Continue"), INTERIM + DONE),
    # a sender that waits, and whose body is not wanted: no route, another method, a GET, another token, none, several
    (head(POST, HOST, FIVE, EXPECT), CLOSING),
    (head("PUT /office/day", HOST, FIVE, EXPECT), refusal("N03", "Allow: POST", CLOSE)),
    (head("GET /office/settlement/24011", HOST, FIVE, EXPECT, f"Bsp-Token: {OFFICE}"), refusal("S01", CLOSE)),
    *(
        (head("POST /office/ret", HOST, FIVE, EXPECT, *fields), refusal("N01", CLOSE))
        for fields in ((), ("Bsp-Token: officetoken00002",), (f"Bsp-Token: {OFFICE}",) * 2)
    ),
    (head("POST /agents/12345675/ret", HOST, FIVE, EXPECT, f"Bsp-Token: {OFFICE}"), refusal("N01", CLOSE)),
    (head(POST, HOST, FIVE, f"{EXPECT}, x") + b"12345", NO_ROUTE),
    (head(GET, HOST, EXPECT), NO_ROUTE),
    *((post("/office/day", DAY, token=it), DONE) for it in (f"Bsp-Token: {OFFICE}", f"bSP-tOKEN:\t {OFFICE} \t")),
    *((post("/office/day", DAY, token=it), FORBIDDEN) for it in ("Bsp-Token:", f"Token: {OFFICE}", f"Bsp-Token: {OFFICE} x")),
    (post("/office/day", DAY, f"Bsp-Token: {OFFICE}"), FORBIDDEN),
    (post("/office/day", b"{}"), refusal("N04")),
    (post("/office/ret", SALE[:137]), refusal("F08", record=2)),
    (post("/office/agents", b'{"agent":"12345674","token":"agenttoken000001"}'), refusal("N05")),
    (
        post("/office/plan", sample("plan.toml"))
        + post("/office/day", b'{"day":"2024-01-16"}')
        + post("/office/close", b'{"period":"24011"}')
        + head("GET /office/settlement/24011", HOST, f"Bsp-Token: {OFFICE}"),
        DONE * 3
        + response(
            "200 OK",
            "SETTLEMENT PERIOD 24011 REMIT 2024-02-15 EUR\nTOTAL   AGENTS              0.00\n"
            "TOTAL   AIRLINES            0.00\n",
            media="text/plain",
        ),
    ),
]

# messages one after the other, with bodies of the three uses, and what is written for each
TALK = [
    (b"\r\n" + post("/office/day", DAY), DONE),
    (
        b"POST /office/ret HTTP/1.1\nhost: a\nbsp-token: officetoken00001\nexpect: 100-CONTINUE\ncontent-length: 4\n\nabcd",
        INTERIM + refusal("F01", record=1),
    ),
    (head("GET /office/day", HOST, "Content-Length: 2") + b"hi", refusal("N03", "Allow: POST")),
    (head(HEAD, HOST), BARE),
    (post("/office/day", b"", f"Bsp-Token: {OFFICE}"), FORBIDDEN),
]
SENT, WRITTEN = (b"".join(it) for it in zip(*TALK))

# a body of several pieces, and a shorter one after it; a RET file with a fault, and an empty one; bodies of the most bytes,
# the last of brackets alone
FAULTY = SALE[:137] + SALE[411:548] + SALE[:137] + b"\t".ljust(136) + b"\n" + SALE[548:]
BODIES = [
    (post("/office/day", b'{"day":%20000b}' % b'"2024-01-05"') + post("/office/day", DAY), DONE + HELD),
    (post("/office/ret", FAULTY) + post("/office/ret", b""), refusal("F03", record=2) + refusal("F08", record=1)),
    (post("/x", bytes(BODY)), NO_ROUTE),
    (post("/office/day", b'{"day":%*b}' % (BODY - 8, b'"2024-01-05"')), DONE),
    (post("/office/day", b"[" * BODY), refusal("N04")),
]
PIECES = 1, 7, 100, 1024, 8191, 8192, 8193, 16_384

# messages of which each allocation is refused in turn, how some of these end, and how others may: the status, what is
# written, and whether less than the message (-1), the message (0) or more (1) is read
REFUSING = [
    (post("/agents/12345675/ret", SALE), {(0, NO_ROOM, -1)}, {(3, b"", -1), (0, NO_ROOM, 0), (0, FORBIDDEN + NEXT_REPLY, 1)}),
    (
        post("/office/day", DAY),
        {(0, DONE + NEXT_REPLY, 1)},
        {(3, b"", -1), (0, NO_ROOM, -1), (0, refusal("B01") + NEXT_REPLY, 1)},
    ),
]


# ---- parts


def run(sent, steps, **names):
    """The status, what is written and said, and how far the input was read."""
    with tempfile.TemporaryFile() as it:
        it.write(sent)
        it.seek(0)
        names = {"LD_PRELOAD": os.path.abspath("steps.so"), "STEPS": steps, **names}
        ended = subprocess.run(
            [program.path(), "run", "--token", OFFICE], stdin=it, capture_output=True, timeout=60, env=os.environ | names
        )
        return ended.returncode, ended.stdout, ended.stderr, os.lseek(it.fileno(), 0, os.SEEK_CUR)


def answered(rows):
    """At once and byte by byte. The next message is answered; or the connection closes, and no more of it is read."""
    for sent, written in rows:
        closes = f"\r\n{CLOSE}\r\n".encode() in written
        whole, output = sent + NEXT, written if closes else written + NEXT_REPLY
        for steps, read in ("read 0", len(whole)), ("read 0 1*", len(sent)):
            wanted = 0, output, b"", min(read, MOST) if closes else len(whole)
            yield f"{sent[:99]!r} of {len(sent)} bytes, {steps}", wanted, whole, steps


def longer(text, length):
    """The head with another field, and so many bytes."""
    return text[:-2] + b"A: ".ljust(length - len(text) - 2, b"b") + b"\r\n\r\n"


def heads():
    yield from ((repr(text), (0, b"", b"", len(text)), text, "read 0 1*") for text in NO_END)
    yield from answered((text, MALFORMED) for text in NO_HEADS)
    yield from answered((head(*it), refusal(code, CLOSE, bare=it[0] == HEAD)) for code, *it in REFUSED)
    yield from answered(ANSWERED)
    # the limits come before other faults, and before the method
    too_large, others = refusal("T04", CLOSE), [head(*it) for _, *it in REFUSED]
    counted = [(PLAIN, FIELDS - 1, NO_ROUTE), (PLAIN, FIELDS, too_large), *((text, FIELDS + 1, too_large) for text in others)]
    yield from answered((text[:-2] + b"A: b\r\n" * count + b"\r\n", written) for text, count, written in counted)
    yield from answered((longer(text, MOST + 1), too_large) for text in (PLAIN, *NO_HEADS, *others))
    # the first bytes of the next message are at the end of the room of the connection, the others after it
    yield from answered((longer(PLAIN, MOST - length), NO_ROUTE) for length in range(len(NEXT) + 1))


def written_of(length):
    """What is written where so many bytes of the talk come: the replies to whole messages, and an interim response."""
    output = b""
    for sent, written in TALK:
        if length < len(sent):
            return output + (INTERIM if b"expect" in sent and b"\n\n" in sent[:length] else b"")
        output, length = output + written, length - len(sent)
    return output


def talks():
    """The input ends or a read fails after each byte; the talk comes in pieces of each size; calls are interrupted."""
    for length in range(len(SENT) + 1):
        yield f"a talk cut to {length} bytes", (0, written_of(length), b"", length), SENT[:length], "read 0"
        fails = "read 0 " + "1 " * length + "fails"
        yield f"a talk, a read fails after {length} bytes", (3, written_of(length), b"", length), SENT, fails
    pieces = [f"read 0 {most}{end}" for most in range(1, len(SENT)) for end in ("*", "")]
    interrupted = "read 0" + " interrupted 1" * len(SENT), "write 1" + " interrupted 1" * len(WRITTEN)
    yield from ((f"a talk, {steps[:22]}", (0, WRITTEN, b"", len(SENT)), SENT, steps) for steps in (*pieces, *interrupted))


def bodies():
    for sent, written in BODIES:
        for most in PIECES if len(sent) < BODY else PIECES[3:]:
            wanted = 0, written + NEXT_REPLY, b"", len(sent + NEXT)
            yield f"{sent[:22]!r} in pieces of {most}", wanted, sent + NEXT, f"read 0 {most}*"
    # the response to the last message that a connection may have closes it
    message = head(HEAD, HOST)
    wanted = 0, BARE * (MESSAGES - 1) + refusal("N02", CLOSE, bare=True), b"", len(message) * MESSAGES
    yield "more messages than the most", wanted, message * (MESSAGES + 1), f"read 0 {len(message)}*"


def shown(result):
    """A result, of whose output the length and the last bytes are shown."""
    status, output, error, read = result
    return status, len(output), output[-2000:], error, read


def cases_of(part):
    """The cases of a part, each with its name."""
    return [pytest.param(*it, id=f"{number} {it[0][:60]}") for number, it in enumerate(part())]


@pytest.fixture(autouse=True)
def steps():
    """The shims."""
    shims.built("steps")
    shims.built("refuse")


@pytest.mark.parametrize("what, wanted, sent, steps_of_reads", cases_of(heads))
def test_a_head_is_answered(what, wanted, sent, steps_of_reads):
    assert shown(run(sent, steps_of_reads)) == shown(wanted), what


def together(part):
    """Compares all cases of a part, some at once."""
    with concurrent.futures.ThreadPoolExecutor(4) as pool:
        for what, wanted, found in [(what, wanted, pool.submit(run, *how)) for what, wanted, *how in part()]:
            expect(what, shown(wanted), shown(found.result()))


def test_a_talk_that_is_cut_fails_or_comes_in_pieces():
    together(talks)


@pytest.mark.parametrize("what, wanted, sent, steps_of_reads", cases_of(bodies))
def test_bodies_in_pieces(what, wanted, sent, steps_of_reads):
    assert shown(run(sent, steps_of_reads)) == shown(wanted), what


def ends_of(sent):
    """How a message ends that comes byte by byte, with each allocation refused in turn."""
    found, preload = set(), f"{os.path.abspath('refuse.so')} {os.path.abspath('steps.so')}"
    for number in range(1, 10_000):
        mark = f"mark {number}"
        names = {"LD_PRELOAD": preload, "REFUSED_ALLOCATION": str(number), "REFUSAL_MARK": mark}
        status, output, _, read = run(sent + NEXT, "read 0 1*", **names)
        if not os.path.exists(mark):
            break
        found.add((status, output, (read > len(sent)) - (read < len(sent))))
    return found


@pytest.mark.parametrize("sent, wanted, others", REFUSING, ids=["a RET file", "a day"])
def test_each_allocation_for_a_message_is_refused(sent, wanted, others):
    assert ends_of(sent) - others == wanted


@pytest.mark.alone
def test_responses_are_sent_together_and_failures_are_said():
    """Responses to messages that came together are sent together. A read and a write that fail have a line."""
    it = Office("--timeout", 1, "--connections", 2)
    with wire.connected(it.port) as peer:
        peer.sendall(SENT)
        found = peer.recv(65_536), *struct.unpack_from("I", peer.getsockopt(socket.IPPROTO_TCP, socket.TCP_INFO, 160), 152)
        expect("responses sent together, in one segment", (WRITTEN, 1), found)
        peer.setsockopt(socket.SOL_SOCKET, socket.SO_LINGER, struct.pack("ii", 1, 0))
    with wire.connected(it.port, 0.5) as peer:
        with contextlib.suppress(TimeoutError):
            peer.sendall(NEXT * MESSAGES)
        said = (
            "bsp_office: connection 1: the peer's bytes could not be read\n"
            "bsp_office: connection 2: a message was not whole, or a response not read, after 1 second\n"
            "bsp_office: 2 connections served\n"
        )
        expect("what is said of connections", (0, said), it.ended())
