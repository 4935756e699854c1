"""What `run` writes on a connection, byte for byte: to heads that are refused, to messages one after the other, to RET files of both
profiles that come in pieces of each size or are cut after each of their bytes, and where reads or writes fail, by the shim steps.c
in front of the C library."""
import concurrent.futures
import itertools
import os
import pathlib
import shutil
import subprocess
import tempfile

import pytest

from support import program, shims
from support.callers import OFFICE as TOKEN
from support.compare import expect
from support.records import RECORD
from support.tree import sample
from support.wire import FORBIDDEN, INTERIM, response

RET, PERIOD, STOCK = (f"/agents/12345675/{it}" for it in ("ret", "periods/24011", "stock"))
SALE, TWO = sample("sale.ret"), sample("exchange-of-two.ret")


# ---- messages and responses


def message(asked, *fields, body=b""):
    """A message that asks for a method and a path. A POST has its length."""
    length = [f"Content-Length: {len(body)}"] if asked.startswith("POST") else []
    return "\r\n".join([f"{asked} HTTP/1.1", "Host: bsp", *fields, *length, "", ""]).encode() + body


def results(verdict, count=1):
    """The response to a RET file of so many transactions, all of this verdict."""
    each = ('{"n":%d,"period":"24011","verdict":"%s"}' % (number, verdict) for number in range(1, count + 1))
    return response("200 OK", '{"results":[%s]}' % ",".join(each))


def sums(documents, net):
    """The response to an agent that asks for its sums in the period."""
    return response("200 OK", '{"closed":false,"documents":%d,"net":"%s","period":"24011"}' % (documents, net))


OFFICE, AGENT = f"Bsp-Token: {TOKEN}", "Bsp-Token: agenttoken000001"
DONE, ACCEPTED, HELD = response("200 OK", '{"result":"done"}'), results("accepted"), results("held")
STRANGER = message(f"GET {STOCK}", "Bsp-Token: x")
REPORT = message(f"POST {RET}", AGENT, body=SALE)
ASKED = message(f"GET {PERIOD}", AGENT)
DAY = b'{"day":"2024-01-05"}'


# ---- the cases

# the most bytes of a head, and heads without their end that are refused: with their status and code
MOST = 16_384
REFUSED = [
    ("GET /x HTTP/1.1", "400 Bad Request", "T01"),
    ("GET /x", "400 Bad Request", "T01"),
    ("GET /x HTTP/1.1\r\nHost: bsp\r\nHost: bsp", "400 Bad Request", "T01"),
    ("GET /x HTTP/1.0\r\nHost: bsp\r\nHost: bsp", "400 Bad Request", "T01"),
    ("GET /x HTTP/1.1\r\nHost: office@bsp", "400 Bad Request", "T01"),
    ("POST /office/day HTTP/1.1\r\nHost: bsp\r\nContent-Length: 1\r\nContent-Length: 1", "400 Bad Request", "T01"),
    ("POST /office/day HTTP/1.1\r\nHost: bsp\r\nContent-Length: +1", "400 Bad Request", "T01"),
    ("POST /x HTTP/1.1\r\nHost: bsp", "411 Length Required", "T02"),
    ("POST /office/day HTTP/1.1\r\nHost: bsp", "411 Length Required", "T02"),
    ("POST /office/day HTTP/1.1\r\nHost: bsp\r\nContent-Length: 4194305", "413 Payload Too Large", "T03"),
    ("GET /x HTTP/1.1\r\nHost: bsp\r\nContent-Length: 4194305", "413 Payload Too Large", "T03"),
    ("GET /x HTTP/1.1\r\nHost: bsp\r\nX: ".ljust(MOST, "x"), "431 Request Header Fields Too Large", "T04"),
    ("GET /x HTTP/1.1\r\nHost: bsp" + "\r\nX: x" * 64, "431 Request Header Fields Too Large", "T04"),
    ("POST /office/day HTTP/1.1\r\nHost: bsp\r\nTransfer-Encoding: chunked", "501 Not Implemented", "T05"),
]

# what is sent to an office with an empty book, message by message, each with what is written
SET_UP = [
    (message("POST /office/plan", OFFICE, body=sample("plan.toml")), DONE),
    (message("POST /office/day", OFFICE, body=DAY), DONE),
    (message("POST /office/agents", OFFICE, body=b'{"agent":"12345675","token":"agenttoken000001"}'), DONE),
    (message("POST /office/stock/allot", OFFICE, body=b'{"agent":"12345675","first":"1300000000","last":"1300000099"}'), DONE),
]
TALKS = {
    "a stranger": [(STRANGER, FORBIDDEN)],
    "a stranger where A is registered": [*SET_UP, (STRANGER, FORBIDDEN)],
    "no route, and another method": [
        (STRANGER, FORBIDDEN),
        (message("GET /x"), response("404 Not Found", '{"code":"N02"}')),
        (message(f"POST {STOCK}"), response("405 Method Not Allowed", '{"code":"N03"}', "Allow: GET")),
    ],
    "an interim response": [
        (message("POST /office/day", OFFICE, "Expect: 100-continue", body=DAY), INTERIM + DONE),
    ],
    "a body that ends early": [(message("POST /office/day", OFFICE, body=DAY)[:-1], b"")],
    "a sale": [
        *SET_UP,
        (REPORT, ACCEPTED),
        (ASKED, sums(1, "225.00")),
        (REPORT, HELD),
        (message(f"POST {RET}", AGENT, body=SALE[:600]), response("422 Unprocessable Entity", '{"code":"F01","record":5}')),
        (message(f"POST {RET}", OFFICE, body=SALE), FORBIDDEN),
    ],
}

# RET files of both profiles: the file, the response to it, and to it again; the most bytes of a read while it comes, and
# how many bytes of it come where it is cut. The second one is cut after its two sales, in the exchange.
FILES = {
    "a sale": (SALE, ACCEPTED, HELD, range(1, 801), range(686)),
    "an exchange of two": (TWO, results("accepted", 3), results("held", 3), range(1, 290), range(7 * RECORD, len(TWO) + 1)),
}

# two reports of 784 bytes come in reads of 100 bytes: which read fails, from 0 on, the status, and how many reports
# were complete before it. There are 17 reads: read 16 finds the end of the input.
FAILED_READS = [(it, 3, 0) for it in range(8)] + [(it, 3, 1) for it in range(8, 16)] + [(16, 3, 2), (17, 0, 2)]

# the replies to them are written one byte a write: which write fails, from 0 on, until none does
FAILED_WRITES = range(len(ACCEPTED + HELD) + 1)


# ---- parts

numbers = itertools.count()


def joined(exchanges):
    """What is sent, and what is written."""
    sent, written = zip(*exchanges)
    return b"".join(sent), b"".join(written)


def run(sent, steps, *words):
    """The status, the output and the error text, how many calls the steps saw, and how many bytes these moved."""
    log, words = f"log{next(numbers)}", [program.path(), "run", "--token", TOKEN, *words]
    with tempfile.TemporaryFile() as it:
        it.write(sent)
        it.seek(0)
        variables = {**os.environ, **shims.stepping(steps, log)}
        ended = subprocess.run(words, stdin=it, capture_output=True, timeout=60, env=variables)
    return ended.returncode, ended.stdout, ended.stderr.decode(), *shims.logged(log)


def together(cases, function=None):
    """Compares these cases, four at once. Each has a name, what is wanted, and the words of the function."""
    function = function or run
    with concurrent.futures.ThreadPoolExecutor(4) as pool:
        for what, wanted, found in [(what, wanted, pool.submit(function, *words)) for what, wanted, *words in cases]:
            expect(what, wanted, found.result())


def refusals():
    """At once and byte by byte. What is after the head is not answered, and not read where it does not come with it."""
    for head, status, code in REFUSED:
        what, written = f"{code} of {head[:80]!r}", response(status, f'{{"code":"{code}"}}', "Connection: close")
        sent = f"{head}\r\n\r\n".encode() + message("GET /x")
        read = min(len(head) + 4, MOST)
        yield what, (0, written, "", 1, min(len(sent), MOST)), sent, "read 0"
        yield f"{what}, byte by byte", (0, written, "", read, read), sent, "read 0 1*"


def unwanted():
    """A sender that waits, at once and byte by byte: to a known caller 100 Continue and the reply; to another its reply by the head
    alone. What is after that head is not answered, and not read where it does not come with it."""
    begun, replies = joined(SET_UP)
    known = message(f"POST {RET}", AGENT, "Expect: 100-continue", body=SALE)
    yield "a known caller waits", (0, replies + INTERIM + ACCEPTED, "", 2, len(begun + known)), begun + known, "read 0"
    for token in OFFICE, "Bsp-Token: agenttoken000002", "Bsp-Token:":
        sent = message(f"POST {RET}", token, "Expect: 100-continue", body=SALE)
        length = len(sent) - len(SALE)
        written = replies + response("403 Forbidden", '{"code":"N01"}', "Connection: close")
        yield f"a caller with {token!r} waits", (0, written, "", 1, len(begun + sent)), begun + sent, "read 0"
        wanted = 0, written, "", 1 + length, len(begun) + length
        yield f"a caller with {token!r} waits, byte by byte", wanted, begun + sent, f"read 0 {len(begun)} 1*"


def talks():
    """At once and byte by byte. The last read finds the end of the input."""
    for what, exchanges in TALKS.items():
        sent, written = joined(exchanges)
        yield what, (0, written, "", 2, len(sent)), sent, "read 0"
        yield f"{what}, byte by byte", (0, written, "", len(sent) + 1, len(sent)), sent, "read 0 1*"


def pieces():
    """A file that is reported again comes in pieces of each size, of a sale from one byte to the whole message."""
    for what, (file, accepted, held, sizes, _) in FILES.items():
        report = message(f"POST {RET}", AGENT, body=file)
        begun, replies = joined([*SET_UP, (report, accepted)])
        for most in sizes:
            calls = 2 + -(-len(report) // most)
            wanted = 0, replies + held, "", calls, len(begun + report)
            yield f"{what} in pieces of {most}", wanted, begun + report, f"read 0 {len(begun)} {most}*"


def cut_reply(file, held, length):
    """The reply to a file that was reported before, of which so many bytes come. Its last LF may be missing."""
    if length >= len(file) - 1:
        return held
    whole, rest = divmod(length, RECORD)
    code, record = {0: ("F08", whole + 1), RECORD - 1: ("F08", whole + 2)}.get(rest, ("F01", whole + 1))
    return response("422 Unprocessable Entity", f'{{"code":"{code}","record":{record}}}')


def cuts():
    """A file that is reported again, cut after its bytes."""
    for what, (file, accepted, held, _, lengths) in FILES.items():
        begun, replies = joined([*SET_UP, (message(f"POST {RET}", AGENT, body=file), accepted)])
        for length in lengths:
            sent = begun + message(f"POST {RET}", AGENT, body=file[:length])
            yield f"{what} cut to {length} bytes", (0, replies + cut_reply(file, held, length), "", 2, len(sent)), sent, "read 0"


def over_book(name, *runs):
    """Each of these runs over one book, which begins with the set-up: what `run` gives, but for the bytes moved."""
    for end in "", "-wal":
        shutil.copy(pathlib.Path(SET_UP_BOOK[0], f"set-up.db{end}"), f"{name}.db{end}")
    return [run(sent, steps, "--db", f"{name}.db")[:4] for sent, steps in runs]


def opened(name, items):
    """What standard error says of a book with the set-up, and so many items."""
    return f"bsp_office: {name}.db: day 2024-01-05, 0 of 2 periods closed, 1 agent, 0 airlines, {items}, 0 memos\n"


def strangers():
    """A stranger over the book in a file, where A is registered."""
    wanted = 0, FORBIDDEN, opened("stranger", "0 items"), 2
    yield "a stranger over a book in a file", [wanted], "stranger", (STRANGER, "read 0")


def byte_by_byte():
    """Reads that give one byte, over the book in a file."""
    calls = len(REPORT * 2) + 1
    wanted = 0, ACCEPTED + HELD, opened("bytes", "0 items"), calls
    yield "reads of one byte over a book in a file", [wanted], "bytes", (REPORT * 2, "read 0 1*")


def failed_reads():
    """The reports that were complete before a read that fails are answered and stay, and no other."""
    for number, status, complete in FAILED_READS:
        name, calls = f"read {number}", min(number + 1, 17)
        failed = status, (b"", ACCEPTED, ACCEPTED + HELD)[complete], opened(name, "0 items"), calls
        asked = (sums(1, "225.00"), opened(name, "1 item")) if complete else (sums(0, "0.00"), opened(name, "0 items"))
        runs = (REPORT * 2, "read 0 " + "100 " * number + "fails"), (ASKED, "read 0")
        yield f"{name} fails", [failed, (0, *asked, 2)], name, *runs


def failed_writes():
    """Before a write that fails a first part of the replies is written, and nothing after it. The sale stays. The last fails
    none, and each write takes one byte."""
    for number in FAILED_WRITES:
        name, fails = f"write {number}", number < len(ACCEPTED + HELD)
        failed = 3 if fails else 0, (ACCEPTED + HELD)[:number], opened(name, "0 items"), number + fails
        again = 0, HELD * 2, opened(name, "1 item"), 2
        runs = (REPORT * 2, "write 1 " + "1 " * number + "fails"), (REPORT * 2, "read 0")
        yield f"{name} fails", [failed, again], name, *runs


def in_memory():
    """The same over a book in memory, whose set-up comes before in one read. A write of it fails too."""
    begun, replies = joined(SET_UP)
    reads = -(-len(REPORT * 2) // 100)
    for number in range(reads + 2):
        complete = min(number * 100 // len(REPORT), 2)
        written = replies + (b"", ACCEPTED, ACCEPTED + HELD)[complete]
        steps = f"read 0 {len(begun)} " + "100 " * number + "fails"
        # the read after the last finds the end of the input
        status, calls = (3, number + 2) if number <= reads else (0, reads + 2)
        yield f"in memory, read {number + 1} fails", [(status, written, "", calls)], [(begun + REPORT * 2, steps)]
    written = replies + ACCEPTED + HELD
    for number in range(len(written) + 1):
        sent, steps, fails = begun + REPORT * 2, "write 1 " + "1 " * number + "fails", number < len(written)
        wanted = 3 if fails else 0, written[:number], "", number + fails
        yield f"in memory, write {number} fails", [wanted], [(sent, steps)]


def over_memory(runs):
    """What each of these runs over a book in memory gives, but for the bytes moved."""
    return [run(sent, steps)[:4] for sent, steps in runs]


PARTS = [refusals, unwanted, talks, pieces, cuts]
OVER_BOOK = [strangers, byte_by_byte, failed_reads, failed_writes]
# the folder of the book with the set-up
SET_UP_BOOK = []


@pytest.fixture(autouse=True)
def steps():
    """The shim."""
    shims.built("steps")


@pytest.fixture(scope="module")
def set_up_book():
    """A book in a file with the set-up."""
    with tempfile.TemporaryDirectory() as folder:
        SET_UP_BOOK[:] = [folder]
        words = ["run", "--token", TOKEN, "--db", "set-up.db"]
        sent, written = joined(SET_UP)
        assert program.run(*words, text=sent, cwd=folder) == (0, written, b"bsp_office: set-up.db: new book\n")
        yield


@pytest.mark.parametrize("part", PARTS, ids=[it.__name__ for it in PARTS])
def test_what_is_written(part):
    together(part())


def test_the_set_up_over_a_book():
    sent, written = joined(SET_UP)
    assert run(sent, "read 0", "--db", "set-up.db") == (0, written, "bsp_office: set-up.db: new book\n", 2, len(sent))


@pytest.mark.parametrize("part", OVER_BOOK, ids=[it.__name__ for it in OVER_BOOK])
def test_what_is_written_over_a_book(part, set_up_book):
    together(part(), over_book)


def test_what_is_written_over_a_book_in_memory_where_calls_fail():
    together(in_memory(), over_memory)
